"""Holds the documents to the tree: the files and the crates that they name.

contracts_test does the same for functions and theorems.
The last line printed is "N passed, M failed".
"""

import re
from functools import partial

import reach
from common.harness import ROOT, Failure, run_tests
from sources import (
    PATH, QUOTED, at, check_none, crates, quoted, rows, sections, tree,
)

README = ROOT / "README.md"
ARCHITECTURE = ROOT / "docs" / "ARCHITECTURE.md"
CHANGES = ROOT / "docs" / "CHANGES.md"
# Of this one page_test holds the tables.
TESTS_PAGE = ROOT / "tests" / "README.md"
DOCUMENTS = [README, TESTS_PAGE, *sorted((ROOT / "docs").glob("*.md"))]

# Paths that are no part of the tree: what is proved and built, and where it is installed.
ELSEWHERE = re.compile(r"crates/\w+/out/|build/|/")


# Files.


def paths_in(line):
    """The paths that a line names: in backquotes, or as words of a command or a listing."""
    words = [name.split()[0] for name in QUOTED.findall(line)]
    if line.startswith("    "):
        words += [word.strip(",;:()`") for word in line.split()]
    paths = [word for word in words if PATH.fullmatch(word) and re.search(r"\w", word)]
    return [path for path in paths if not ELSEWHERE.match(path)]


def is_there(path, crate):
    """Whether the tree has a path: from the top, or behind any folder of the crate, or of the
    whole tree if there is no crate. A star and NAME stand for any name."""
    end = re.escape(path.rstrip("/")).replace(r"\*", "[^/]+").replace("NAME", "[^/]+")
    pattern = re.compile(rf"(?:{f'crates/{crate}/' if crate else ''}(?:.*/)?)?{end}")
    return any(pattern.fullmatch(one) for one in tree())


def check_paths():
    """Every file and folder that a document names is there; a name that is no path from the
    top, in the crate that the row of a table or the section is about."""
    found, count = [], 0
    for path in DOCUMENTS:
        for section, number, line in sections(path):
            first = line.strip("| ").split(" ")[0]
            crate = next((one for one in (first, section) if one in crates()), "")
            for said in () if path == TESTS_PAGE and line.startswith("|") else paths_in(line):
                count += 1
                if not is_there(said, crate):
                    found.append(f"{at(path, number)} {said}")
    print(f"  paths: {count}")
    check_none(found, "files that are not there")


# Crates.


def crates_of_readme():
    """The crates that the README lists under what is where."""
    return re.findall(r"^ {6}(\w+) {2,}\S", README.read_text(), re.M)


def crates_of_diagram():
    """The crates in the diagram of ARCHITECTURE.md, each a word by itself, and those in the
    sentences of its section."""
    words = []
    for section, _, line in sections(ARCHITECTURE):
        if section == "The crates":
            pieces = re.split(r" {2,}", line) if line.startswith("    ") else quoted(line)
            words += [re.sub(r"[|/\\+-]", "", piece).strip() for piece in pieces]
    return [word for word in words if re.fullmatch(r"\w+", word)]


def check_times():
    """Every crate has its row in a table of times, in whichever entry it came; a crate that was
    there then may be gone."""
    if not CHANGES.is_file():
        raise Failure("there is no docs/CHANGES.md")
    firsts = [quoted(row.cells[0]) for row in rows(CHANGES) if "check" in row.head]
    check_none(sorted(set(crates()) - {name for first in firsts for name in first}), "missing")


def check_crates(listed_in):
    """A list has the crates of crates.txt, and no other."""
    listed = set(listed_in())
    if listed != set(crates()):
        missing = sorted(set(crates()) - listed)
        raise Failure(f"missing: {missing}; no crates: {sorted(listed - set(crates()))}")


TESTS = [
    ("files that documents name are there", check_paths),
    ("README.md lists the crates", partial(check_crates, crates_of_readme)),
    ("ARCHITECTURE.md's diagram has the crates", partial(check_crates, crates_of_diagram)),
    ("CHANGES.md's times have the crates", check_times),
]


if __name__ == "__main__":
    run_tests(TESTS)
