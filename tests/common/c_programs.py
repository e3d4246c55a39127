"""C programs that call the library: how they are built and run.

The delivered archive is x86-64 code, and a program with it runs through scripts/x86-64-run.
Under sanitizers a program runs with the same code compiled once more, for them.
"""

import os
from functools import cache
from pathlib import Path

from common.harness import ROOT, Failure, run, scratch

HEADER = ROOT / "include" / "ibisladder.h"
DRIVERS = ROOT / "tests" / "comparison" / "driver"
CROSS_COMPILER = ROOT / "scripts" / "x86-64-cc"
CROSS_RUN = ROOT / "scripts" / "x86-64-run"
NATIVE_LIBRARY = ROOT / "scripts" / "native-library"

STRICT = ("-Wall", "-Wextra", "-pedantic", "-Werror")
SANITIZED = ("-fsanitize=address,undefined", "-fno-sanitize-recover=all", "-g", "-O1")


def archive(crate="host"):
    """The archive that a crate was proved and written to; tests never prove by themselves."""
    path = ROOT / "crates" / crate / "out" / f"lib{crate}.a"
    if not path.is_file():
        made_by = f"scripts/prove --library {crate}"
        raise Failure(f"there is no {path.relative_to(ROOT)}: {made_by} proves and writes it")
    return path


def words_for(standard):
    return f"-std={standard}", *STRICT, f"-I{HEADER.parent}"


def build_delivered(standard, sources, program, crate="host"):
    """Builds an x86-64 program with the delivered archive, and gives it."""
    words = (*words_for(standard), "-O2", "-static")
    run(CROSS_COMPILER, *words, *sources, archive(crate), "-o", program)
    return program


def built_once(name, build):
    """What several test files ask: it is built once for all that tests/run runs, in the folder
    that it names."""
    path = Path(os.environ.get("TESTS_BUILT") or scratch()) / name
    if not path.exists():
        made = path.with_suffix(f".{os.getpid()}")
        build(made)
        made.replace(path)
    return path


def build_checked_library(library):
    """Builds the library of which all that it reads and writes is checked."""
    archive()
    run(NATIVE_LIBRARY, "--sanitized", library)


def build_sanitized(standard, sources, program):
    """Builds a program in which all that it and the library read and write is checked, and
    gives it."""
    library = built_once("libsanitized.a", build_checked_library)
    run("cc", *words_for(standard), *SANITIZED, *sources, library, "-o", program)
    return program


@cache
def driver(name, *others, crate="host"):
    """A driver of the comparison."""
    sources = [DRIVERS / f"{part}.c" for part in (name, *others)]
    return built_once(name, lambda made: build_delivered("c99", sources, made, crate))
