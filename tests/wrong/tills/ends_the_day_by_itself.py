"""Sends an end of day after its last step. Found by: approval."""
import pathlib
import sys

sys.path.insert(0, str(pathlib.Path(__file__).parent.parent))
from till import Till, start


class Wrong(Till):
    def done(self):
        self.send(bytes.fromhex("0650030000 00".replace(" ", "")))


start(Wrong)
