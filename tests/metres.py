"""Holds the calls in metres to document 02, from C, by tests/metres.c and tests/wrong_metres.c: from_c.py says how.

    metres.py LIBDIR      the folder that holds libsurvey.a
"""

import sys

sys.dont_write_bytecode = True
import from_c  # noqa: E402

sys.exit(from_c.main("metres"))
