"""Holds the crates to the rules of the house, by their text alone.

That every contract is met and every theorem proved is the prover's to say; these are the rules
that it does not know. The last line printed is "N passed, M failed".
"""

import re
from functools import cache

import reach
from common.harness import ROOT, Failure, run_tests
from sources import (
    at, check_none, crates, definitions, files_of, functions, laws, lines_of,
)

# What would take a statement for granted, or leave it open. In code a question mark behind a value
# hands its error on.
UNPROVED = {
    ".antt": re.compile(r"\b(?:axiom|postulate|sorry|admit)\b|\?"),
    ".rt": re.compile(r"\b(?:axiom|postulate|sorry|admit)\b|(?<![\w)\]])\?"),
}

# What a name is made of. The toolchain sets a plus before the name of a function that calls
# itself.
ANTT_NAME = re.compile(r"\+?[^\W_](?:\w|[-'])*")
RT_NAME = re.compile(r"[A-Za-z_][A-Za-z0-9_]*")
RT_DEFINITION = re.compile(r"\b(?:fn|struct|enum|const|trait|type|mod) +([^\s(){}<>:;=]+)")

# This crate computes what definitions of others say, which is its point.
OPENS_ALL = "figures"

COMMENT_SIGNS = {".antt": "--", ".rt": "//"}

FIRST_SENTENCE = re.compile(r"-- [\W]?[A-Z]|-- `")
LAST_SENTENCE = "-- Assumes nothing."


def all_functions():
    """Every public function, with its crate."""
    return [(crate, function) for crate in crates() for function in functions(crate)]


def code_lines():
    """Every line of the crates' definitions, proofs and code, without its comment."""
    for crate in crates():
        for path in (*files_of(crate, "**/*.antt"), *files_of(crate, "**/*.rt")):
            for number, line in lines_of(path):
                yield path, number, line.split(COMMENT_SIGNS[path.suffix])[0]


def check_folders():
    """crates/ has a folder for each crate of crates.txt, and no other."""
    folders = {path.name for path in (ROOT / "crates").iterdir()}
    check_none(sorted(folders ^ set(crates())), "in crates/ or in crates.txt alone")


@cache
def exported(crate):
    """What a crate's lib.rt uses publicly, as pairs of a module and a name."""
    library = ROOT / "crates" / crate / "src" / "lib.rt"
    text = library.read_text() if library.is_file() else ""
    uses = re.findall(r"^pub use (\w+)::(?:(\w+)|\{([^}]*)\});", text, re.M)
    return {
        (module, name.strip()) for module, one, some in uses for name in (one or some).split(",")
    }


def check_exports():
    """A public function can be called from outside: it stands in lib.rt, or lib.rt uses it, or
    its type, publicly. All others are pub(crate)."""
    if not all_functions():
        raise Failure("there is no public function")
    found = [
        f"{function.place} {function.name}"
        for crate, function in all_functions()
        if function.module != "lib"
        and (function.module, function.name.split("::")[0]) not in exported(crate)
    ]
    check_none(found, "public functions that lib.rt does not export")


def check_requires():
    """No public function asks anything of its caller."""
    found = [
        f"{function.place} {function.name}"
        for _, function in all_functions()
        for line in function.contract
        if line.strip().startswith("requires")
    ]
    check_none(found, "public functions with a requires")


def check_ensures():
    """Every public function promises something."""
    found = [
        f"{function.place} {function.name}"
        for _, function in all_functions()
        if not any(line.strip().startswith("ensures") for line in function.contract)
    ]
    check_none(found, "public functions without an ensures")


def check_symbols():
    """All operators come from the kit: what is defined here has a plain name."""
    found = [
        f"{at(path, number)} {name}"
        for crate in crates()
        for path in files_of(crate, "**/*.antt")
        for name, number in definitions(path).items()
        if not ANTT_NAME.fullmatch(name)
    ]
    found += [
        f"{at(path, number)} {name}"
        for path, number, line in code_lines()
        if path.suffix == ".rt"
        for name in RT_DEFINITION.findall(line)
        if not RT_NAME.fullmatch(name)
    ]
    check_none(found, "names that are symbols")


def check_first_sentence():
    """A file of definitions or proofs says first what it is about, and what it assumes."""
    found = []
    for crate in crates():
        for path in laws(crate):
            lines = path.read_text().splitlines() or [""]
            end = next((n for n, line in enumerate(lines) if not line.startswith("--")), 0)
            if not FIRST_SENTENCE.match(lines[0]) or LAST_SENTENCE not in lines[1:end]:
                found.append(at(path, 1))
    check_none(found, "files that do not begin with a sentence and what they assume")


def brought_in(path):
    """The names that a file brings in from crates, each with its crate; of a module that it
    brings in under another name, that name."""
    found = {}
    for _, line in lines_of(path):
        match = re.match(r"\s*(?:pub )?use Rattle\.(\w+)[^{ ]*(?: as (\S+)|\{(.*)\})?", line)
        if match and match[1] in crates(): # the toolchain's libraries have such a path too
            names = [match[2]] if match[2] else (match[3] or "").split(",")
            found |= {name.split(" as ")[-1].strip(): match[1] for name in names}
    return found


def opened_by_code(crate):
    """What a crate's code has the prover open, by an attribute, of other crates."""
    found = []
    for path in files_of(crate, "src/*.rt"):
        for number, line in lines_of(path):
            for names in re.findall(r"\bunfolding\(([^)]*)\)", line):
                found += [
                    f"{at(path, number)} {name}"
                    for name in re.split(r"[\s,]+", names)
                    if name.split("::")[0] in crates()
                ]
    return found


def check_opened():
    """No crate opens a definition of another; it cites the laws which that one states."""
    found = []
    for crate in crates():
        for path in laws(crate) if crate != OPENS_ALL else []:
            of = brought_in(path)
            found += [
                f"{at(path, number)} {name} of {of[name]}"
                for number, line in lines_of(path)
                if line.strip().startswith("unfolding ")
                for name in line.split()[1:]
                if of.get(name, crate) != crate
            ]
        found += opened_by_code(crate) if crate != OPENS_ALL else []
    check_none(found, "definitions of a crate below that are opened")


def check_proved():
    """Nothing is taken for granted or left open."""
    found = [
        f"{at(path, number)} {match[0]}"
        for path, number, line in code_lines()
        for match in UNPROVED[path.suffix].finditer(line)
    ]
    check_none(found, "axioms and holes")


TESTS = [
    ("crates/ has the crates of crates.txt", check_folders),
    ("every public function is exported", check_exports),
    ("no public function has a requires", check_requires),
    ("every public function has an ensures", check_ensures),
    ("no name is a symbol", check_symbols),
    ("every file of definitions or proofs begins with a sentence", check_first_sentence),
    ("no crate opens a definition of another", check_opened),
    ("no axiom and no hole", check_proved),
]


if __name__ == "__main__":
    run_tests(TESTS)
