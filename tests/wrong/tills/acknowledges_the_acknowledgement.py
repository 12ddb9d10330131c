"""Acknowledges the acknowledgement of its order. Found by: approval."""
import pathlib
import sys

sys.path.insert(0, str(pathlib.Path(__file__).parent.parent))
from till import ACK, Till, start


class Wrong(Till):
    def hear(self):
        kind, data = super().hear()
        if kind == "8000":
            self.send(ACK)
        return kind, data


start(Wrong)
