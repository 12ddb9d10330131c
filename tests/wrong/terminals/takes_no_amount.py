"""Takes a payment without an amount. Found by: no-amount."""
import pathlib
import sys

sys.path.insert(0, str(pathlib.Path(__file__).parent.parent))
from terminal import Terminal, start


class Wrong(Terminal):
    def judge(self, data):
        return None

    def approve(self, amount):
        super().approve("000000000000")

    def amounts(self, data):
        found = super().amounts(data)
        return {0x04: found[0x04] or ["000000000000"]}


start(Wrong)
