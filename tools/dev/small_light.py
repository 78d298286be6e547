"""`light` for which a box has fewer cells, so that small areas are cut, for the scripts beside this file."""
import os
import sys

from repository import TOOLS

LIGHT = os.path.join(TOOLS, "user", "light")
FEWER = "import sys; sys.path.insert(0, {!r}); import extents; extents.CELLS = {}; import runpy;" \
        " sys.argv = sys.argv[1:]; runpy.run_path(sys.argv[0], run_name='__main__')"


def words(cells):
    """The words that run it where a box has at most `cells` cells."""
    return [sys.executable, "-c", FEWER.format(os.path.join(TOOLS, "user"), cells), LIGHT]
