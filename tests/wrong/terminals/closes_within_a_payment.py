"""Closes the connection after the acknowledgement. Found by: payment."""
import pathlib
import sys

sys.path.insert(0, str(pathlib.Path(__file__).parent.parent))
from terminal import Terminal, start


class Wrong(Terminal):
    def approve(self, amount):
        raise EOFError


start(Wrong)
