"""Takes a payment back a second time. Found by: reversal-twice."""
import pathlib
import sys

sys.path.insert(0, str(pathlib.Path(__file__).parent.parent))
from terminal import Terminal, start


class Wrong(Terminal):
    def take_back(self, receipt):
        return self.payments[receipt]


start(Wrong)
