"""Brings the folder common/ of the tests into reach. Whatever is run imports this module before all
others of the tests: the gate takes no links, by which the folder could stand here too.
"""

import sys
from pathlib import Path

TESTS = Path(__file__).resolve().parents[1]

sys.path.insert(1, str(TESTS))
