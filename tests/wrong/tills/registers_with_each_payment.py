"""Registers again before each payment. Found by: two-approvals."""
import pathlib
import sys

sys.path.insert(0, str(pathlib.Path(__file__).parent.parent))
from till import Till, start


class Wrong(Till):
    def pay(self, amount):
        self.register()
        return super().pay(amount)


start(Wrong)
