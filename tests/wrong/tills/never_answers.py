"""Connects, and says nothing until the kit gives up. Found by: approval."""
import pathlib
import sys

sys.path.insert(0, str(pathlib.Path(__file__).parent.parent))
from till import Till, start


class Wrong(Till):
    seconds = 70

    def register(self):
        self.connect()
        self.receive(1)


start(Wrong)
