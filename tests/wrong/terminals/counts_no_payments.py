"""Gives each payment the same trace number. Found by: two-payments."""
import pathlib
import sys

sys.path.insert(0, str(pathlib.Path(__file__).parent.parent))
from terminal import Terminal, start


class Wrong(Terminal):
    def count(self):
        return "000041"


start(Wrong)
