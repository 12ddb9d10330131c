"""Refuses each status information. Found by: approval."""
import pathlib
import sys

sys.path.insert(0, str(pathlib.Path(__file__).parent.parent))
from till import ACK, REFUSED, Till, start


class Wrong(Till):
    def acknowledge(self, kind, data):
        self.send(REFUSED if kind == "040f" else ACK)


start(Wrong)
