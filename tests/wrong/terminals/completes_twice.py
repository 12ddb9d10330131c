"""Sends a second completion after 200 ms. Found by: payment."""
import pathlib
import sys
import time

sys.path.insert(0, str(pathlib.Path(__file__).parent.parent))
from terminal import Terminal, start


class Wrong(Terminal):
    def complete(self):
        super().complete()
        time.sleep(0.2)
        super().complete()


start(Wrong)
