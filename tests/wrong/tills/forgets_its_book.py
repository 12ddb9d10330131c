"""Forgets its book at a restart. Found by: restart."""
import pathlib
import sys

sys.path.insert(0, str(pathlib.Path(__file__).parent.parent))
from till import Till, start


class Wrong(Till):
    def load(self, book):
        pass


start(Wrong)
