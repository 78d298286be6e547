"""Makes the modules of tools/dev and tools/user known to the tests, which import it first."""
import os
import sys

sys.dont_write_bytecode = True  # leave no __pycache__ in the repository
sys.path.insert(1, os.path.dirname(os.path.dirname(os.path.abspath(__file__))))
import repository
