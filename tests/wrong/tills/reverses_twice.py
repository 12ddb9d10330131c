"""Sends each reversal a second time after it ended. Found by: reversal."""
import pathlib
import sys

sys.path.insert(0, str(pathlib.Path(__file__).parent.parent))
from till import Till, start


class Wrong(Till):
    def reverse(self, number):
        super().reverse(number)
        return super().reverse(number)


start(Wrong)
