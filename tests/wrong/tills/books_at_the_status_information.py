"""Books a payment once the status information approves. Found by: lost-after-approval."""
import pathlib
import sys

sys.path.insert(0, str(pathlib.Path(__file__).parent.parent))
from till import Till, start


class Wrong(Till):
    def lost(self, step):
        return self.book(self.statuses[-1]) if self.statuses else super().lost(step)


start(Wrong)
