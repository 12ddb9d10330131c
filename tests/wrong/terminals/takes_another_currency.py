"""Takes a payment in another currency. Found by: other-currency."""
import pathlib
import sys

sys.path.insert(0, str(pathlib.Path(__file__).parent.parent))
from terminal import Terminal, start


class Wrong(Terminal):
    def judge(self, data):
        why = super().judge(data)
        return None if why == "currency" else why


start(Wrong)
