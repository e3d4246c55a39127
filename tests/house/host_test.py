"""Tests what a C programmer gets: the header, the libraries, the example and the installed files.

The example examples/host.c has the sample and figures of docs/RULES.md in it and fails by itself
where an answer is another one; its output must also be examples/host.expected, whose numbers
must be the second program's and whose words the header's (host_page.py).
The archive crates/host/out/libhost.a must be there: `scripts/prove --library host` proves and
writes it.
The last line printed is "N passed, M failed".
"""

import os
import re
import shutil
from functools import cache, partial
from itertools import zip_longest
from string import Template

import reach
from common.c_programs import (
    CROSS_COMPILER, CROSS_RUN, HEADER, STRICT, archive, build_delivered, build_sanitized,
)
from common.harness import ROOT, Failure, complaint, ended, run, run_tests, scratch
from host_page import EXAMPLE, enumerated, page, words_of
from second import numbers
from second.statements import statement
from sources import check_none

EXPECTED = ROOT / "examples" / "host.expected"

# What the three calls are to need of a C library: what a C compiler asks of any.
ALLOWED_NEEDS = {"memcpy", "memset", "memmove"}
CALLS = {"ibisladder_check", "ibisladder_settle", "ibisladder_power"}

STATEMENT = ROOT / "crates" / "statement" / "out" / "statement"
SAMPLE = ROOT / "examples" / "winter.txt"

# Where `make install` puts what, beside the shared library's own file.
INSTALLED = {
    "bin/statement", "include/ibisladder.h", "lib/libibisladder.a", "lib/libibisladder.so",
    "lib/pkgconfig/ibisladder.pc", "share/man/man1/statement.1", "share/man/man3/ibisladder.3",
}

# A line of `readelf -SW`: number, name, kind, address, offset, size, size of an entry, flags
# (W for writable, X for code), and three numbers more.
SECTION = re.compile(
    r" *\[ *\d+\] (\S+) +\S+ +[0-9a-f]+ [0-9a-f]+ ([0-9a-f]+) [0-9a-f]+ +(\w*) +\d+ +\d+ +\d+"
)


def check_header(compiler, language, standard):
    """The header compiles by itself, and twice in a row."""
    text = f'#include "{HEADER}"\n#include "{HEADER}"\n'
    words = (f"-std={standard}", *STRICT, "-fsyntax-only", "-x", language, "-")
    run(compiler, *words, input=text.encode())


def check_words(function, prefix, possible):
    """The header has words for each number of an enumeration, no two the same, and the second
    program can give no number without words."""
    words = words_of(function)
    named = {number for name, number in enumerated().items() if name.startswith(prefix)}
    check_none(sorted(named ^ set(words)), "numbers with a name or with words, not both")
    check_none(sorted(set(possible) - set(words)), "possible numbers without words")
    if len(set(words.values())) < len(words):
        raise Failure(f"the same words twice: {sorted(words.values())}")


def version():
    """The version by the header's three numbers, which its one string must say too."""
    said = dict(re.findall(r'#define IBISLADDER_VERSION_?(\w*) "?([\d.]+)"?', HEADER.read_text()))
    of_three = ".".join(said[name] for name in ("MAJOR", "MINOR", "PATCH"))
    if said[""] != of_three:
        raise Failure(f"the version is {said['']} and {of_three}")
    return of_three


def check_expected():
    """The example's expected output is derived: numbers from the second program, words from the
    header."""
    if EXPECTED.read_text() != page():
        raise Failure("host.expected is not what host_page.py prints")


def check_example(*command):
    """The example prints what is expected and finds nothing wrong itself. A difference in
    its output says more than its exit status, and so comes first."""
    done = ended(*command)
    said, right = done.stdout.splitlines(), EXPECTED.read_bytes().splitlines()
    for one, other in zip_longest(said, right, fillvalue=b"nothing"):
        if one != other:
            one, other = one.decode(errors="backslashreplace"), other.decode()
            raise Failure(f"it prints {one}, not {other}; {complaint(done)}")
    if done.returncode != 0:
        raise Failure(complaint(done))


def check_delivered():
    """The example with the delivered archive, as an x86-64 program."""
    check_example(CROSS_RUN, build_delivered("c99", [EXAMPLE], scratch() / "host"))


def check_sanitized():
    """The example under sanitizers."""
    check_example(build_sanitized("c99", [EXAMPLE], scratch() / "host-sanitized"))


def symbols(*words):
    """The symbols that `nm` lists with these words, without their versions."""
    lines = run("nm", "-P", *words).stdout.decode().splitlines()
    return {line.split()[0].split("@")[0] for line in lines if len(line.split()) > 1}


def check_given(given, needed):
    """A library has the three calls and no other name to clash with a host's."""
    if given != CALLS:
        raise Failure(f"it has {sorted(given)}, not {sorted(CALLS)}")
    if not needed <= ALLOWED_NEEDS:
        raise Failure(f"it needs {sorted(needed - ALLOWED_NEEDS)}")


def check_symbols():
    """The names of the archive."""
    check_given(symbols("-g", "--defined-only", archive()), symbols("-u", archive()))


def sections():
    """The sections of the archive's objects: name, bytes and flags of each. `readelf` reads
    objects of any processor."""
    lines = run("readelf", "-SW", archive()).stdout.decode().splitlines()
    found = [SECTION.fullmatch(line) for line in lines]
    return [(name, int(size, 16), flags) for name, size, flags in (m.groups() for m in found if m)]


def check_no_state():
    """The archive keeps nothing from call to call: no section that a program may write to has
    any bytes."""
    rows = sections()
    if not any(size > 0 and "X" in flags for _, size, flags in rows):
        raise Failure(f"no code was found in it: {rows}")
    writable = [f"{name} of {size} bytes" for name, size, flags in rows if size and "W" in flags]
    if writable:
        raise Failure(f"it can write to {', '.join(writable)}")


def flags_of(prefix):
    """The flags that the installed pkg-config file gives. Where pkg-config is missing the
    file is read here, which its few lines allow."""
    folder = prefix / "lib" / "pkgconfig"
    if shutil.which("pkg-config"):
        path = {**os.environ, "PKG_CONFIG_PATH": str(folder)}
        words = ("--cflags", "--libs", "--static", "ibisladder")
        return run("pkg-config", *words, env=path).stdout.decode().split()
    fields = {}
    for line in (folder / "ibisladder.pc").read_text().splitlines():
        name, value = re.match(r"(\w*)[=:]? *(.*)", line).groups()
        fields[name] = Template(value).substitute(fields)
    return [*fields["Cflags"].split(), *fields["Libs"].split()]


def check_same_file(one, other):
    if not one.is_file():
        raise Failure(f"there is no {one.name} installed")
    if one.read_bytes() != other.read_bytes():
        raise Failure(f"the installed {one.name} is not {other.relative_to(ROOT)}")


@cache
def installed():
    """A prefix with all that `make install` puts there."""
    archive()
    prefix = scratch() / "installed"
    run("make", "install", f"PREFIX={prefix}")
    return prefix


def shared_names():
    """The shared library's file, and its name for the loader, which has the numbers of the
    version within which nothing changes."""
    return f"libibisladder.so.{version()}", f"libibisladder.so.{version().rpartition('.')[0]}"


def files_in(folder):
    return {str(path.relative_to(folder)) for path in folder.rglob("*") if not path.is_dir()}


def check_installed():
    """`make install`, then the example with nothing but the flags of pkg-config."""
    prefix = installed()
    check_same_file(prefix / "include" / "ibisladder.h", HEADER)
    check_same_file(prefix / "lib" / "libibisladder.a", archive())
    program = scratch() / "host-installed"
    words = ("-std=c99", *STRICT, "-static", EXAMPLE, *flags_of(prefix))
    run(CROSS_COMPILER, *words, "-o", program)
    check_example(CROSS_RUN, program)


def check_shared():
    """The shared library: its names, what it is called by the loader, and that nothing in it can
    be written to once it is loaded."""
    library = installed() / "lib" / shared_names()[0]
    check_given(symbols("-D", "--defined-only", library), symbols("-D", "-u", library))
    told = run("readelf", "-dlW", library).stdout.decode()
    for right in (f"soname: [{shared_names()[1]}]", "GNU_RELRO", "BIND_NOW"):
        if right not in told:
            raise Failure(f"it does not say {right}")
    if ".data" in told or ".bss" in told:
        raise Failure("it has data of its own")


def check_shared_example():
    """The example with the shared library, which the loader finds by the folder that it is told."""
    folder = installed() / "lib"
    program = scratch() / "host-shared"
    words = ("-std=c99", *STRICT, f"-I{HEADER.parent}", EXAMPLE, f"-L{folder}", "-libisladder")
    run(CROSS_COMPILER, *words, "-o", program)
    if shared_names()[1] not in run("readelf", "-dW", program).stdout.decode():
        raise Failure("the shared library is not linked")
    check_example("env", f"LD_LIBRARY_PATH={folder}", CROSS_RUN, program)


def check_program():
    """The installed program is the proved one, and makes a statement."""
    program = installed() / "bin" / "statement"
    check_same_file(program, STATEMENT)
    printed = run(CROSS_RUN, program, input=SAMPLE.read_bytes()).stdout
    if printed != statement(SAMPLE.read_bytes()):
        raise Failure(f"it prints {printed!r}")


def check_manuals():
    """The man pages are those of man/, and name every function of the header, every number that
    a text can get and every code."""
    for section, name in ((1, "statement"), (3, "ibisladder")):
        manual = f"{name}.{section}"
        folder = installed() / "share" / "man" / f"man{section}"
        check_same_file(folder / manual, ROOT / "man" / manual)
    library = (ROOT / "man" / "ibisladder.3").read_text()
    functions = {*re.findall(r"\b(ibisladder_\w+)\(", HEADER.read_text())}
    check_none(sorted(name for name in functions if f"{name}(" not in library), "not in (3)")
    program = (ROOT / "man" / "statement.1").read_text()
    possible = {*numbers.TEXT["text"], *numbers.CODES}
    missing = [number for number in possible if not re.search(rf"\b{number}\b", program)]
    check_none(sorted(missing), "not in (1)")


def check_uninstalled():
    """`make uninstall` takes out all that `make install` put there, and nothing else."""
    prefix = scratch() / "uninstalled"
    run("make", "install", f"PREFIX={prefix}")
    right = INSTALLED | {f"lib/{name}" for name in shared_names()}
    check_none(sorted(files_in(prefix) ^ right), "installed or listed, not both")
    (prefix / "lib" / "other.a").touch()
    run("make", "uninstall", f"PREFIX={prefix}")
    check_none(sorted(files_in(prefix) - {"lib/other.a"}), "left behind")
    if not (prefix / "lib" / "other.a").exists():
        raise Failure("another file is gone")


def check_refused_folders():
    """A prefix with a blank, a relative one or none is refused with a word, before anything is
    made."""
    for folder in (f"PREFIX={scratch()}/a b", "PREFIX=here", "PREFIX=", f"DESTDIR={scratch()}/a b"):
        for goal in ("install", "uninstall"):
            done = ended("make", goal, folder)
            word = f"{folder.split('=')[0]} has to be".encode()
            if done.returncode == 0 or word not in done.stderr:
                raise Failure(f"make {goal} {folder}: {complaint(done)}")
    if (ROOT / "here").exists() or (scratch() / "a").exists():
        raise Failure("something was installed")


def check_staged():
    """DESTDIR is where the files go, and the pkg-config file does not name it."""
    delivered = archive()
    stage = scratch() / "stage"
    run("make", "install", "PREFIX=/opt/desk", f"DESTDIR={stage}")
    installed = stage / "opt" / "desk"
    check_same_file(installed / "lib" / "libibisladder.a", delivered)
    text = (installed / "lib" / "pkgconfig" / "ibisladder.pc").read_text()
    if not text.startswith("prefix=/opt/desk\n"):
        raise Failure(f"the pkg-config file begins {text.splitlines()[0]}")


TESTS = [
    ("the header is C99", partial(check_header, "cc", "c", "c99")),
    ("the header is C17", partial(check_header, "cc", "c", "c17")),
    ("the header is C++98", partial(check_header, "c++", "c++", "c++98")),
    ("the header is C++17", partial(check_header, "c++", "c++", "c++17")),
    ("words for every refusal", partial(
        check_words, "ibisladder_refusal_text", ("IBISLADDER_ACCEPTED", "IBISLADDER_REFUSED_"),
        {*numbers.SETTLEMENT["settlement"], *numbers.POWER["power"]}.union(
            *numbers.LIST_CHECK.values()
        ),
    )),
    ("words for every event code", partial(
        check_words, "ibisladder_event_text", ("IBISLADDER_EVENT_",), numbers.CODES,
    )),
    ("the version is said once", version),
    ("host.expected is the second program's", check_expected),
    ("the archive has the three calls alone", check_symbols),
    ("the archive has no writable state", check_no_state),
    ("the example with the delivered archive", check_delivered),
    ("the example under sanitizers", check_sanitized),
    ("make install, and the example with its flags", check_installed),
    ("make install: the shared library has the three calls alone", check_shared),
    ("make install: the example with the shared library", check_shared_example),
    ("make install: the program", check_program),
    ("make install: the man pages", check_manuals),
    ("make install with DESTDIR", check_staged),
    ("make uninstall", check_uninstalled),
    ("a folder that cannot be installed to", check_refused_folders),
]


if __name__ == "__main__":
    run_tests(TESTS)
