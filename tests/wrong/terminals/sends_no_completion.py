"""Ends a payment without a completion. Found by: payment."""
import pathlib
import sys

sys.path.insert(0, str(pathlib.Path(__file__).parent.parent))
from terminal import Terminal, start


class Wrong(Terminal):
    def complete(self):
        pass


start(Wrong)
