"""Sends no second payment of the same amount. Found by: two-approvals."""
import pathlib
import sys

sys.path.insert(0, str(pathlib.Path(__file__).parent.parent))
from till import Till, start


class Wrong(Till):
    def pay(self, amount):
        return self.book(self.booked[0]) if self.booked else super().pay(amount)


start(Wrong)
