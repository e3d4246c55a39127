"""Holds the documents to the crates: public functions, must-fail edits, and theorems.

docs/CONTRACTS.md has a table a crate, of its functions and their edits; DEMANDS.md and
ARCHITECTURE.md name theorems beside their files. What they name is there, and what they must
list is listed. The last line printed is "N passed, M failed".
"""

import re
from functools import cache, partial

import reach
from common.harness import ROOT, Failure, run_tests
from sources import (
    PATH, QUOTED, at, check_none, crates, definitions, edits, functions, laws, public_names,
    quoted, rows, sections,
)

CONTRACTS = ROOT / "docs" / "CONTRACTS.md"
DEMANDS = ROOT / "docs" / "DEMANDS.md"
ARCHITECTURE = ROOT / "docs" / "ARCHITECTURE.md"

LEAST_EDITS = 2

# Names for the tests, which are held to nothing but the definitions of the functions they call.
WITHOUT_EDITS = {"probe"}

# Words in backquotes that name nothing of the tree: the language's, the toolchain's, C's, a text's.
OTHER_WORDS = {
    "requires", "ensures", "rt", "rt ci", "rt check", "rt must-fail NAME", "read", "write", "read=",
}

# Names in a row, one after the other, with the file that they are in right behind them.
BESIDE = re.compile(r"((?:`[^`./]+`(?:, | and )?)+) (?:of |\()`([\w/+]+\.antt)`")


# Functions and edits.


def function_rows(crate):
    """The rows of a crate's functions, by the function."""
    found = [row for row in rows(CONTRACTS) if (row.section, row.head[0]) == (crate, "function")]
    return {quoted(row.cells[0])[0]: row for row in found}


def named_edits(crate):
    """The must-fail edits that are named for a crate, each with its place."""
    found = {
        name: row.place()
        for row in function_rows(crate).values()
        if "must-fail edit" in row.head[-1]
        for name in quoted(row.cells[-1])
    }
    for section, number, line in sections(CONTRACTS):
        if section == crate and line.startswith("Must-fail edits:"):
            found |= dict.fromkeys(quoted(line), at(CONTRACTS, number))
    return found


def check_functions():
    """Every public function is in its crate's section, and every function there is one."""
    found = []
    for crate in crates():
        places = {function.name: function.place for function in functions(crate)}
        listed = function_rows(crate)
        found += [f"{places[name]} {name} is not listed" for name in places.keys() - listed]
        found += [f"{listed[name].place()} no {name} in {crate}" for name in listed.keys() - places]
    check_none(sorted(found), "public functions in CONTRACTS.md")


def check_edits():
    """Every edit is named in its crate's section, and every edit named there is one."""
    found = []
    for crate in crates():
        there, named = edits(crate), named_edits(crate)
        found += [
            f"crates/{crate}/must-fail/{name}.edit:1 is not named"
            for name in there
            if name not in named
        ]
        found += [f"{place} no {name}" for name, place in named.items() if name not in there]
    check_none(found, "must-fail edits in CONTRACTS.md")


def check_enough_edits():
    """Every function has so many edits at least, in its own row."""
    found = [
        f"{row.place()} {name}"
        for crate in crates()
        if crate not in WITHOUT_EDITS
        for name, row in function_rows(crate).items()
        if len(set(quoted(row.cells[-1])) & set(edits(crate))) < LEAST_EDITS
    ]
    check_none(found, f"functions with fewer than {LEAST_EDITS} must-fail edits")


# Theorems.


def files_in(text):
    """The files of definitions and proofs that a text names."""
    return [name for name in QUOTED.findall(text) if name.endswith(".antt")]


def meant(name, row):
    """The files of definitions and proofs that a name or path means: one from the top, else
    those of the crate that the row or its section is about, else any that end so."""
    about = [one for one in (row.cells[0].strip("`"), row.section) if one in crates()][:1]
    if name.startswith("crates/") or not about:
        about = crates()
    paths = [path for crate in about for path in laws(crate)]
    return [path for path in paths if f"/{path.relative_to(ROOT)}".endswith(f"/{name}")]


@cache
def names_of_code():
    """Every crate, public function and edit."""
    names = set(crates())
    for crate in crates():
        names |= {*edits(crate), *(function.name for function in functions(crate))}
    return names


def with_files(row):
    """The names of a row that stand beside files, and these: the first cell's beside those of
    a last column `where`; else the first cell's, and others of several words that are no names
    of code, beside those that the table is about."""
    first = quoted(row.cells[0])
    if row.head[-1] == "where":
        return first, files_in(row.cells[-1])
    others = [name for cell in row.cells[1:] for name in quoted(cell) if "_" in name]
    others = [name for name in others if name not in names_of_code()]
    about = files_in(row.above)
    return [*first, *others], [*about, *files_in(" ".join(row.cells))] if about else []


def beside(path):
    """Each name in a table that stands beside files, with its row and these."""
    for row in rows(path):
        names, files = with_files(row)
        for name in names if files else ():
            if not name.endswith(".antt"):
                yield name, row, files
        for match in BESIDE.finditer(" | ".join(row.cells)):
            for name in quoted(match[1]):
                yield name, row, [match[2]]


def check_theorems():
    """What stands beside a file is defined in it, publicly."""
    named = [one for path in (DEMANDS, ARCHITECTURE) for one in beside(path)]
    found = []
    for name, row, files in named:
        paths = [one for file in files for one in meant(file, row)]
        if not any(name in public_names(one) for one in paths):
            found.append(f"{row.place()} {name} is not in {', '.join(files)}")
    print(f"  names beside a file: {len(named)}")
    check_none(found, "theorems that are not where it says")
    if not named:
        raise Failure("no name stands beside a file")


def known_names():
    """Every name of a crate, a public function, an edit or a definition."""
    names = names_of_code() | OTHER_WORDS
    for crate in crates():
        for path in laws(crate):
            names |= definitions(path).keys()
    return names


def check_names(path):
    """What stands in backquotes is a name of the tree, a file, or said to be of the kit."""
    names = known_names()
    found = []
    for _, number, line in sections(path):
        of_the_kit = re.findall(r"`([^`]+)` of the kit", line)
        for name in quoted(line):
            if name not in names and name not in of_the_kit and not PATH.fullmatch(name):
                found.append(f"{at(path, number)} {name}")
    check_none(found, "names of nothing")


TESTS = [
    ("every public function is in CONTRACTS.md, and no other", check_functions),
    ("every must-fail edit is in CONTRACTS.md, and no other", check_edits),
    (f"every function has {LEAST_EDITS} must-fail edits or more", check_enough_edits),
    ("theorems of DEMANDS.md and ARCHITECTURE.md are where they say", check_theorems),
    *(
        (f"names of {path.name} are names of the tree", partial(check_names, path))
        for path in (CONTRACTS, DEMANDS, ARCHITECTURE)
    ),
]


if __name__ == "__main__":
    run_tests(TESTS)
