"""Sends the order again over a new line, without a registration. Found by: lost-after-order."""
import pathlib
import sys

sys.path.insert(0, str(pathlib.Path(__file__).parent.parent))
from till import Till, start


class Wrong(Till):
    def lost(self, step):
        self.connect()
        self.is_registered = True
        return self.pay(1000)


start(Wrong)
