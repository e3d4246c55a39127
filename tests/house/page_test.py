"""Holds tests/README.md to the tests, the second program and the must-fail edits.

Whoever looks for a refusal number or a rule there finds a test that exists.
The last line printed is "N passed, M failed".
"""

import re
import sys
from functools import cache

import reach
from common.harness import ROOT, run, run_tests
from second import numbers
from sources import check_none, edits, rows

TESTS_FOLDER = ROOT / "tests"
PAGE = TESTS_FOLDER / "README.md"

# A test file in backquotes, with its folder unless that is comparison/, and the names of tests of
# it in italics; an edit with its crate.
FILE_OR_NAME = re.compile(r"`([\w/]+_test)`|\*([^*]+)\*")
EDIT = re.compile(r"`(\w+)/(\w+)`")


def named_tests(row):
    """The tests that a row names, as pairs of the file and the name."""
    found, file = [], ""
    for path, name in FILE_OR_NAME.findall(row.cells[-2]):
        if path:
            file = path if "/" in path else f"comparison/{path}"
        else:
            found.append((file, name))
    return found


@cache
def tests_of(file):
    """The names of a test file's tests, none if there is no such file."""
    path = TESTS_FOLDER / f"{file}.py"
    if not path.exists():
        return ()
    return run(sys.executable, path, "--names").stdout.decode().splitlines()


def check_column(head, right):
    """A table has a row for each of these numbers, and no other."""
    listed = {row.cells[0] for row in rows(PAGE) if row.head[0] == head}
    check_none(sorted(listed ^ set(map(str, right))), f"{head}s on the page or possible, not both")


def check_numbers():
    """Whatever is refused, its number has a row."""
    check_column("number", numbers.REFUSALS)


def check_codes():
    """Every code of a line has a row."""
    check_column("code", numbers.CODES)


def check_tests():
    """What a row names is a test of that file, and each row names one."""
    found = []
    for row in rows(PAGE):
        tests = named_tests(row)
        found += [] if tests else [f"{row.place()} names no test"]
        found += [
            f"{row.place()} {file}: {name}" for file, name in tests if name not in tests_of(file)
        ]
    check_none(found, "tests that are not there")


def check_edits():
    """What a row names is a must-fail edit of that crate, or the row says that it has none."""
    found = []
    for row in rows(PAGE):
        named = EDIT.findall(row.cells[-1])
        found += [] if named or row.cells[-1] == "-" else [f"{row.place()} names no edit"]
        found += [
            f"{row.place()} {crate}/{name}" for crate, name in named if name not in edits(crate)
        ]
    check_none(found, "must-fail edits that are not there")


def check_files():
    """Every test file is on the page."""
    named = {file for row in rows(PAGE) for file, _ in named_tests(row)}
    there = {f"{path.parent.name}/{path.stem}" for path in TESTS_FOLDER.glob("*/*_test.py")}
    check_none(sorted(there - named), "test files that the page does not name")


TESTS = [
    ("every refusal number has a row", check_numbers),
    ("every event code has a row", check_codes),
    ("every test that the page names is there", check_tests),
    ("every must-fail edit that the page names is there", check_edits),
    ("every test file is on the page", check_files),
]


if __name__ == "__main__":
    run_tests(TESTS)
