"""Connects, registers and pays again after a lost line. Found by: lost-after-approval."""
import pathlib
import sys

sys.path.insert(0, str(pathlib.Path(__file__).parent.parent))
from till import Till, start


class Wrong(Till):
    def lost(self, step):
        self.connect()
        self.register()
        return self.pay(1000)


start(Wrong)
