"""Holds the lit map, the calls on its rows and the tiles of a window to document 02, from C, by tests/map.c and tests/wrong_map.c: from_c.py says how.

    map.py LIBDIR      the folder that holds libsurvey.a
"""

import sys

sys.dont_write_bytecode = True
import from_c  # noqa: E402

sys.exit(from_c.main("map"))
