"""Acknowledges a command that it does not know. Found by: unknown-command."""
import pathlib
import sys

sys.path.insert(0, str(pathlib.Path(__file__).parent.parent))
from terminal import Terminal, start


class Wrong(Terminal):
    def refuse(self, why):
        self.acknowledge()


start(Wrong)
