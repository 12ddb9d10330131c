"""Books a payment in another currency. Found by: other-currency."""
import pathlib
import sys

sys.path.insert(0, str(pathlib.Path(__file__).parent.parent))
from till import Till, start


start(Till)
