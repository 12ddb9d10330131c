"""Acknowledges an order that is malformed. Found by: malformed."""
import pathlib
import sys

sys.path.insert(0, str(pathlib.Path(__file__).parent.parent))
from terminal import Terminal, start


class Wrong(Terminal):
    def malformed(self):
        self.acknowledge()


start(Wrong)
