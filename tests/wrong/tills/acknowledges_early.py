"""Acknowledges a message at its first bytes. Found by: byte-by-byte."""
import pathlib
import sys

sys.path.insert(0, str(pathlib.Path(__file__).parent.parent))
from till import ACK, Till, start


class Wrong(Till):
    def hear(self):
        self.receive(3)
        if self.held[:2] == bytes.fromhex("040F"):
            self.send(ACK)
        return super().hear()


start(Wrong)
