"""What all test files share: failing, running a command, a folder to write in, the last line.

A test is its name and a check. The check fails by raising Failure.
"""

import atexit
import subprocess
import sys
import tempfile
from functools import cache
from pathlib import Path

ROOT = Path(__file__).resolve().parents[2]

# Installing may prove the host's crate once more.
SECONDS_ALLOWED = 300

SHOWN_OF_A_COMMAND = 80


class Failure(Exception):
    """A test that failed; the text says why."""


@cache
def scratch():
    """A folder for what this file builds and writes, gone when it ends."""
    folder = tempfile.TemporaryDirectory()
    atexit.register(folder.cleanup)
    return Path(folder.name)


def name_of(command):
    """A command as it is told: its words without folders."""
    return " ".join(Path(word).name for word in command)[:SHOWN_OF_A_COMMAND]


def ended(*command, **others):
    """A command's run, whatever its exit status. What it prints is kept, unless `others` says
    where else it goes."""
    kept = dict.fromkeys(("stdout", "stderr"), subprocess.PIPE)
    try:
        return subprocess.run(command, timeout=SECONDS_ALLOWED, **{"cwd": ROOT, **kept, **others})
    except OSError as error:
        raise Failure(f"cannot run {name_of(command)}: {error.strerror}") from None
    except subprocess.TimeoutExpired:
        raise Failure(f"{name_of(command)} ran longer than {SECONDS_ALLOWED} seconds") from None


def complaint(done):
    """A run's exit status, below 0 for a signal, and what was said about it."""
    said = (done.stderr or done.stdout or b"").decode(errors="backslashreplace").strip()
    return f"exit status {done.returncode}: {said}"


def run(*command, **others):
    """A command's run, which must end with exit status 0."""
    done = ended(*command, **others)
    if done.returncode != 0:
        raise Failure(f"{name_of(command)} ended with {complaint(done)}")
    return done


def run_tests(tests):
    """Runs the tests in their order and ends the file: its last line is "N passed, M failed".
    Asked for --names it prints these instead, for the test that holds tests/README.md."""
    if sys.argv[1:] == ["--names"]:
        print(*(name for name, _ in tests), sep="\n")
        sys.exit()
    passed = failed = 0
    for name, check in tests:
        try:
            check()
        except Failure as failure:
            failed += 1
            print(f"FAILED  {name}: {failure}")
        else:
            passed += 1
            print(f"passed  {name}")
    print(f"{passed} passed, {failed} failed")
    sys.exit(0 if passed > 0 and failed == 0 else 1)
