"""Takes a lost line for a decline. Found by: lost-after-approval."""
import pathlib
import sys

sys.path.insert(0, str(pathlib.Path(__file__).parent.parent))
from till import Till, start


class Wrong(Till):
    def lost(self, step):
        return "declined"


start(Wrong)
