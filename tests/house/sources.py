"""The tree and its documents, as far as the tests of the house read them.

Crates with their public functions, must-fail edits and definitions; documents with their
headings, tables and names in backquotes. A place is told as file and line.
"""

import os
import re
from functools import cache
from pathlib import Path
from typing import NamedTuple

from common.harness import ROOT, Failure

# What is no part of the tree: what is proved and built, and what git keeps.
OUTSIDE = {".git", "out", "build", "__pycache__"}

QUOTED = re.compile(r"`([^`]+)`")

# A path as a document names it: with a slash, or a file by its ending.
PATH = re.compile(r"[\w.*-]*(?:/[\w.*+-]*)+|[\w-]+\.(?:antt|rt|md|txt|c|h|py|expected)")

# A name with its type, as a definition or a field of a record has it, and the words before it.
DEFINITION = re.compile(
    r'\s*((?:(?:pub|abbrev|unfoldable|record|data) +)*)([^\s(){}"]+)(?: [({].*[)}])? :(?: |$)'
)


def check_none(found, what):
    """Fails where something was found that should not be; each finding tells its place."""
    if found:
        raise Failure(f"{what}: {len(found)}" + "".join(f"\n  {one}" for one in found[:10]))


def at(path, line):
    """A place as it is told."""
    return f"{path.relative_to(ROOT)}:{line}"


def lines_of(path):
    """The lines of a file with their numbers, from 1."""
    return list(enumerate(path.read_text().splitlines(), start=1))


@cache
def tree():
    """Every file and folder of the tree, by its path from the top."""
    found = []
    for folder, folders, files in os.walk(ROOT):
        folders[:] = [name for name in folders if name not in OUTSIDE]
        found += [str(Path(folder, name).relative_to(ROOT)) for name in (*folders, *files)]
    return found


# Crates.


@cache
def crates():
    """The crates that crates.txt names, in its order; behind a static library's name stands that
    it is one."""
    lines = (ROOT / "crates.txt").read_text().splitlines()
    return [line.split(":")[0].split()[0] for line in lines if ":" in line and line[0] != "#"]


def files_of(crate, pattern):
    """A crate's files of this pattern, in their order, but for what was made of it."""
    folder = ROOT / "crates" / crate
    return sorted(path for path in folder.glob(pattern) if folder / "out" not in path.parents)


def laws(crate):
    """A crate's files of definitions and proofs; a Lib.antt only lists others."""
    return [path for path in files_of(crate, "**/*.antt") if path.name != "Lib.antt"]


def edits(crate):
    """The names of a crate's must-fail edits."""
    return [path.stem for path in files_of(crate, "must-fail/*.edit")]


@cache
def definitions(path):
    """The names that a file of definitions or proofs defines, each with its line."""
    found = ((number, DEFINITION.match(line)) for number, line in lines_of(path))
    return {match[2]: number for number, match in found if match}


@cache
def public_names(path):
    """Those of them that other files can cite."""
    found = (DEFINITION.match(line) for _, line in lines_of(path))
    return {match[2] for match in found if match and "pub " in match[1]}


class Function(NamedTuple):
    """A public function: its module, its name, with its type before it if it is a method,
    where it stands, and the lines from its name to its body, which hold its contract."""
    module: str
    name: str
    place: str
    contract: list


def contract(lines):
    """The lines before a function's body."""
    for end, line in enumerate(lines):
        if line.strip() == "{" or line.endswith(" {"):
            return lines[:end + 1]
    return lines


def functions(crate):
    """A crate's public functions."""
    found = []
    for path in files_of(crate, "src/*.rt"):
        texts = [line for _, line in lines_of(path)]
        owner = ""
        for number, line in lines_of(path):
            if line.startswith(("impl ", "}")):
                owner = f"{line.split()[1]}::" if line.startswith("impl ") else ""
            match = re.match(r' *pub (?:[a-z]+ |"C" )*fn (\w+)', line)
            if match:
                rest = contract(texts[number - 1:])
                found.append(Function(path.stem, owner + match[1], at(path, number), rest))
    return found


# Documents.


class Row(NamedTuple):
    """A row of a table: where it stands, the heading of its section, what stands between that
    or another table and this one, the head of the table, and the row's cells."""
    path: object
    line: int
    section: str
    above: str
    head: list
    cells: list

    def place(self):
        """Where the row stands, as it is told."""
        return at(self.path, self.line)


def cells_of(line):
    """The cells of a line of a table."""
    return [cell.strip() for cell in line.strip().strip("|").split("|")]


def sections(path):
    """The lines of a document with their numbers, each with the heading of its section; a
    heading below it counts where it is a crate."""
    section, found = "", []
    for number, line in lines_of(path):
        heading = line.lstrip("#").strip(" `")
        if line.startswith("## ") or line.startswith("### ") and heading in crates():
            section = heading
        found.append((section, number, line))
    return found


def rows(path):
    """The rows of all tables of a document."""
    above, head, found = "", None, []
    for section, number, line in sections(path):
        if not line.startswith("|"):
            above = f"{above} {line}" if not line.startswith("#") and not head else line
            head = None
        elif head is None:
            head = cells_of(line)
        elif set(line) - set("|- :"):
            found.append(Row(path, number, section, above, head, cells_of(line)))
    return found


def quoted(text):
    """The names in backquotes, a function without its arguments."""
    return [re.sub(r"\(.*\)$", "", name) for name in QUOTED.findall(text)]
