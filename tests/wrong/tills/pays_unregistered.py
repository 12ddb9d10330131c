"""Pays although its registration was refused. Found by: refused-registration."""
import pathlib
import sys

sys.path.insert(0, str(pathlib.Path(__file__).parent.parent))
from till import Till, start


class Wrong(Till):
    def pay(self, amount):
        self.is_registered = True
        return super().pay(amount)


start(Wrong)
