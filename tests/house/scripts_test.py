"""Tests the scripts that prove and run: many at once, from nothing and from built.

The built program is this repository's own. What is made from nothing is made in a tiny repository
with a stand-in for the toolchain (tiny.py), since a proof takes minutes. The days that
scripts/calendar has to mark stand here: no other program is asked for them.
The last line printed is "N passed, M failed".
"""

import os
import shutil
import signal
import subprocess
import time

import reach
from common.harness import ROOT, SECONDS_ALLOWED, Failure, ended, run, run_tests, scratch
from tiny import Tiny, ends_of

STATEMENT = "scripts/statement"
CALENDAR = "scripts/calendar"
AT_ONCE = 20
TIMES = 10
FEW_TIMES = 2

WAITING = b"waiting"


def tiny():
    """A fresh tiny repository."""
    folder = scratch() / "tiny"
    shutil.rmtree(folder, ignore_errors=True)
    return Tiny(folder)


def check_equal(got, right, what):
    if got != right:
        raise Failure(f"{what}: {got}, not {right}")


def told_of(crate):
    """What is said of each crate that is proved for another one, as its proof begins."""
    return [b"proving below, 1 of at most 2", f"proving {crate}, 2 of at most 2".encode()]


def check_said(complaints, told):
    """None complains but that it waits, and one says what is proved, where something is."""
    said = [[line for line in one.splitlines() if WAITING not in line] for one in complaints]
    check_equal([lines for lines in said if lines], [told] if told else [], "said")


def check_many(repository, output, asked):
    """Many statements at once: each is right, and the toolchain was asked for this and nothing
    else."""
    ends = ends_of([repository.start(STATEMENT) for _ in range(AT_ONCE)])
    for status, out, _ in ends:
        check_equal((status, out), (0, output), "a statement")
    check_said([complaint for *_, complaint in ends], told_of("statement") if asked else [])
    check_equal(repository.collisions(), [], "asked while at work")
    check_equal(repository.asked(), asked, "asked of the toolchain")


MADE = ["run statement"]
OUTPUT = b"below" + b"statement text"


def check_from_nothing():
    """From nothing one makes the program and the others wait."""
    repository = tiny()
    for _ in range(TIMES):
        repository.forget()
        check_many(repository, OUTPUT, MADE)


def check_not_asked():
    """From built the toolchain is not asked."""
    repository = tiny()
    check_many(repository, OUTPUT, MADE)
    for _ in range(FEW_TIMES):
        check_many(repository, OUTPUT, [])


def check_built():
    """This repository's program, from built."""
    text = ROOT / "examples" / "winter.txt"
    right = (0, text.with_suffix(".expected").read_bytes(), b"")
    run(ROOT / STATEMENT, text)
    pipes = dict.fromkeys(("stdout", "stderr"), subprocess.PIPE)
    for _ in range(TIMES):
        at_once = [subprocess.Popen([ROOT / STATEMENT, text], **pipes) for _ in range(AT_ONCE)]
        for end in ends_of(at_once, None):
            check_equal(end, right, "a statement")


def check_changes():
    """What changed is made again, once: a source, one below it, crates.txt, the toolchain, or a
    program that was made past the scripts."""
    repository = tiny()
    check_many(repository, OUTPUT, MADE)
    repository.change("statement", "other")
    check_many(repository, b"belowother text", MADE)
    repository.change("below", "deep")
    check_many(repository, b"deepother text", MADE)
    (repository.top / "crates.txt").write_text("below:\nstatement: below io\nhost staticlib: below\n")
    check_many(repository, b"deepother text", MADE)
    (repository.kit / "version").write_text("stand-in 2\n")
    check_many(repository, b"deepother text", MADE)
    program = repository.top / "crates" / "statement" / "out" / "statement"
    program.write_text("#!/bin/sh\n")
    check_many(repository, b"deepother text", MADE)


def check_no_change():
    """A must-fail edit, and a crate that the program does not stand on, are no change."""
    repository = tiny()
    check_many(repository, OUTPUT, MADE)
    repository.change("host", "other")
    edits = repository.top / "crates" / "below" / "must-fail"
    edits.mkdir()
    (edits / "one.edit").write_text("file: src/lib.rt\n")
    check_many(repository, OUTPUT, [])


def check_library():
    """An archive: nothing is made twice."""
    repository = tiny()
    check_many(repository, OUTPUT, MADE)
    for asked in (["lib host"], []):
        prove = ("scripts/prove", "--library", "host")
        ends = ends_of([repository.start(*prove) for _ in range(AT_ONCE)])
        check_equal({status for status, _, _ in ends}, {0}, "exit status")
        check_said([complaint for *_, complaint in ends], told_of("host") if asked else [])
        check_equal(repository.asked(), asked, "asked of the toolchain")


def check_not_proved():
    """Where the proof fails each one says so and prints nothing; mended, all is right."""
    repository = tiny()
    (repository.kit / "broken").touch()
    for status, out, complaint in ends_of([repository.start(STATEMENT) for _ in range(3)]):
        check_equal((status, out), (1, b""), "a statement")
        if b"this is not proved\nscripts/prove: statement is not proved" not in complaint:
            raise Failure(f"it says {complaint!r}")
    repository.asked()
    (repository.kit / "broken").unlink()
    check_many(repository, OUTPUT, MADE)


def at_work(repository):
    """A statement that has the toolchain at work."""
    process = repository.start(STATEMENT, stderr=subprocess.DEVNULL)
    end = time.monotonic() + SECONDS_ALLOWED
    while not (repository.kit / "busy").exists():
        time.sleep(0.01)
        if time.monotonic() > end:
            raise Failure("the toolchain is not asked")
    repository.asked()
    return process


def check_killed():
    """One is killed while the toolchain is at work: the others wait until that has ended."""
    repository = tiny()
    for _ in range(3):
        repository.forget()
        process = at_work(repository)
        os.killpg(process.pid, signal.SIGKILL)
        process.communicate()
        check_many(repository, OUTPUT, MADE)


def check_stopped():
    """One is stopped from the keyboard: the toolchain ends with it, and the others go on."""
    repository = tiny()
    process = at_work(repository)
    os.killpg(process.pid, signal.SIGINT)
    process.communicate()
    if (repository.kit / "busy").exists():
        raise Failure("the toolchain is still at work")
    check_many(repository, OUTPUT, MADE)


def check_help():
    """--help is on standard output and names every option; a script's wrong use is not."""
    done = run(ROOT / STATEMENT, "--help")
    check_equal(done.stderr, b"", "on standard error")
    for word in (b"usage: scripts/statement [--words] [FILE]", b"--words", b"Exit status"):
        if word not in done.stdout:
            raise Failure(f"it does not say {word.decode()}")
    done = ended(ROOT / STATEMENT, "--words", "one", "two")
    check_equal((done.returncode, done.stdout), (2, b""), "two files")


# All days of a winter that the calendar has a word on. 2024 is a leap year.
MARKED = {
    2023: """\
  4   5 November   Sunday     clocks back
 53  24 December   Sunday     excluded
 54  25 December   Monday     excluded
 55  26 December   Tuesday    excluded
 60  31 December   Sunday     excluded
 61   1 January    Monday     excluded
 62   2 January    Tuesday    excluded
130  10 March      Sunday     clocks forward: no hour 2
149  29 March      Friday     excluded
""",
    2026: """\
  0   1 November   Sunday     clocks back
 53  24 December   Thursday   excluded
 54  25 December   Friday     excluded
 55  26 December   Saturday   excluded
 60  31 December   Thursday   excluded
 61   1 January    Friday     excluded
 62   2 January    Saturday   excluded
133  14 March      Sunday     clocks forward: no hour 2
145  26 March      Friday     excluded
148  29 March      Monday     excluded
""",
}


def check_calendar():
    """A winter's calendar marks these days and no others."""
    for winter, right in MARKED.items():
        _, *days = run(ROOT / CALENDAR, str(winter)).stdout.decode().splitlines()
        marked = [line for line in days if not line.endswith("day")]
        check_equal(marked, right.splitlines(), f"winter {winter}")


TESTS = [
    ("twenty at once from nothing, ten times", check_from_nothing),
    ("twenty at once from built: the toolchain is not asked", check_not_asked),
    ("twenty at once from built, ten times: the proved program", check_built),
    ("a change is made once", check_changes),
    ("no change, nothing made", check_no_change),
    ("an archive is made once", check_library),
    ("a proof that fails", check_not_proved),
    ("killed while the toolchain is at work", check_killed),
    ("stopped while the toolchain is at work", check_stopped),
    ("--help", check_help),
    ("the calendar marks excluded days and both Sundays the clocks change", check_calendar),
]


if __name__ == "__main__":
    run_tests(TESTS)
