"""Takes a payment of nothing. Found by: amount-zero."""
import pathlib
import sys

sys.path.insert(0, str(pathlib.Path(__file__).parent.parent))
from terminal import Terminal, start


class Wrong(Terminal):
    def judge(self, data):
        why = super().judge(data)
        return None if why == "no amount" else why


start(Wrong)
