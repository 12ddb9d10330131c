"""Books the last of two approvals. Found by: status-twice-different."""
import pathlib
import sys

sys.path.insert(0, str(pathlib.Path(__file__).parent.parent))
from till import Till, start


start(Till)
