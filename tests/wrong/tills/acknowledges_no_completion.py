"""Acknowledges no completion. Found by: approval."""
import pathlib
import sys

sys.path.insert(0, str(pathlib.Path(__file__).parent.parent))
from till import ACK, Till, start


class Wrong(Till):
    def acknowledge(self, kind, data):
        if kind != "060f":
            self.send(ACK)


start(Wrong)
