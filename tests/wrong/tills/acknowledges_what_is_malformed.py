"""Takes no length of a field to heart. Found by: malformed-length."""
import pathlib
import sys

sys.path.insert(0, str(pathlib.Path(__file__).parent.parent))
from till import Till, start


start(Till)
