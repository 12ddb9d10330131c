"""Takes a payment back, and names the trace number of another. Found by: reversal."""
import pathlib
import sys

sys.path.insert(0, str(pathlib.Path(__file__).parent.parent))
from terminal import Terminal, start


class Wrong(Terminal):
    def take_back(self, receipt):
        amount, trace = super().take_back(receipt)
        return amount, f"{int(trace) - 1:06}"


start(Wrong)
