"""Acknowledges no print line. Found by: approval-with-receipt."""
import pathlib
import sys

sys.path.insert(0, str(pathlib.Path(__file__).parent.parent))
from till import ACK, Till, start


class Wrong(Till):
    def acknowledge(self, kind, data):
        if kind != "06d1":
            self.send(ACK)


start(Wrong)
