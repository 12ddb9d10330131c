"""Takes each payment for declined. Found by: approval."""
import pathlib
import sys

sys.path.insert(0, str(pathlib.Path(__file__).parent.parent))
from till import Till, start


class Wrong(Till):
    def end_payment(self, kind, amount):
        return "declined"


start(Wrong)
