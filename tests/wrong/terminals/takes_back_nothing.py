"""Takes back a receipt that it never gave. Found by: reversal-of-nothing."""
import pathlib
import sys

sys.path.insert(0, str(pathlib.Path(__file__).parent.parent))
from terminal import Terminal, start


class Wrong(Terminal):
    def unknown_receipt(self):
        self.finish(f"2700040000000010000B{self.count()}37000001490978")


start(Wrong)
