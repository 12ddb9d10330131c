"""Sends a second authorisation 20 ms after the completion. Found by: approval."""
import pathlib
import sys
import time

sys.path.insert(0, str(pathlib.Path(__file__).parent.parent))
from till import Till, start


class Wrong(Till):
    def done(self):
        time.sleep(0.02)
        self.pay(1000)


start(Wrong)
