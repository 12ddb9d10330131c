"""Acknowledges no message. Found by: approval."""
import pathlib
import sys

sys.path.insert(0, str(pathlib.Path(__file__).parent.parent))
from till import Till, start


class Wrong(Till):
    def acknowledge(self, kind, data):
        pass


start(Wrong)
