"""Books two payments under one trace number. Found by: used-trace-number."""
import pathlib
import sys

sys.path.insert(0, str(pathlib.Path(__file__).parent.parent))
from till import Till, start


start(Till)
