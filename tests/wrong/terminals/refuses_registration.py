"""Refuses each registration. Found by: registration."""
import pathlib
import sys

sys.path.insert(0, str(pathlib.Path(__file__).parent.parent))
from terminal import Terminal, start


class Wrong(Terminal):
    def register(self):
        self.refuse("unregistered")


start(Wrong)
