"""Tries a declined payment again. Found by: decline."""
import pathlib
import sys

sys.path.insert(0, str(pathlib.Path(__file__).parent.parent))
from till import Till, start


class Wrong(Till):
    def pay(self, amount):
        outcome = super().pay(amount)
        return outcome if outcome.startswith("paid") else super().pay(amount)


start(Wrong)
