"""Sends an abort in place of the acknowledgement of the completion. Found by: approval."""
import pathlib
import sys

sys.path.insert(0, str(pathlib.Path(__file__).parent.parent))
from till import ACK, Till, start


class Wrong(Till):
    def acknowledge(self, kind, data):
        self.send(bytes.fromhex("06B000") if kind == "060f" else ACK)


start(Wrong)
