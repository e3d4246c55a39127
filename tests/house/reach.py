"""Brings into reach what stands elsewhere: the folders common/ of the tests, second/ of the comparison
and words/ of the scripts. Whatever is run imports this module before all others of the tests: the
gate takes no links, by which these folders could stand here too.
"""

import sys
from pathlib import Path

TESTS = Path(__file__).resolve().parents[1]

sys.path[1:1] = [str(TESTS), str(TESTS / "comparison"), str(TESTS.parent / "scripts")]
