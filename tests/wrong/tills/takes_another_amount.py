"""Books a payment of another amount. Found by: other-amount."""
import pathlib
import sys

sys.path.insert(0, str(pathlib.Path(__file__).parent.parent))
from till import Till, start


start(Till)
