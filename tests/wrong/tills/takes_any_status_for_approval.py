"""Books whatever status information came. Found by: decline-with-completion."""
import pathlib
import sys

sys.path.insert(0, str(pathlib.Path(__file__).parent.parent))
from till import Till, start


class Wrong(Till):
    def end_payment(self, kind, amount):
        return self.book({0x0B: bytes(3), **self.statuses[-1]})


start(Wrong)
