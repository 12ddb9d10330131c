"""Sends each order twice. Found by: approval."""
import pathlib
import sys

sys.path.insert(0, str(pathlib.Path(__file__).parent.parent))
from till import Till, start


class Wrong(Till):
    def order(self, message):
        self.send(message + message)


start(Wrong)
