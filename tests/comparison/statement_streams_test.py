"""Tests how the program `statement` takes its text and gives its statement away.

A text may come in any pieces, slowly, from a pipe or from a file; the statement may go into
a pipe or a file. It must be the second program's whatever the way, and a read that fails counts as
the end of the text (rule 8.18).
The last line printed is "N passed, M failed".
"""

import os
import random
import subprocess
import time
from threading import Timer

import reach
from cases.checks import shown
from cases.statement_runs import program_words, said
from cases.statement_texts import SAMPLE, SMALL, parts_of_size
from common.harness import SECONDS_ALLOWED, Failure, run_tests, scratch
from second.statements import LONGEST_TEXT, statement

SEED = 2026

PIECES = range(1, 8)

# The program is waiting for its text after the first pause, and gets a piece after each of
# the short ones.
FIRST_PAUSE = 0.5
SHORT_PAUSE = 0.01


def check_statement(text, printed):
    """This was printed for the text."""
    right = statement(text)
    if printed != right:
        raise Failure(f"{shown(text)}: it prints {shown(printed)}, not {shown(right)}")


def pieces_of(text, length_of):
    """A text in pieces; `length_of` gives the length of each."""
    while text:
        length = length_of()
        yield text[:length]
        text = text[length:]


def written_in_pieces(program, pieces, pause):
    """Writes the pieces one by one, each with a pause behind it. A program need not read on
    once the text is too long."""
    try:
        for piece in pieces:
            program.stdin.write(piece)
            time.sleep(pause)
    except BrokenPipeError:
        pass


def check_pieces(text, length_of, first_pause=0, pause=0):
    """The program prints the statement of a text that comes in pieces. Nothing is kept back
    on the way: each piece is written by itself. A program that does not end is ended."""
    pipes = dict.fromkeys(("stdin", "stdout", "stderr"), subprocess.PIPE)
    with subprocess.Popen(program_words(), **pipes, bufsize=0) as program:
        end = Timer(SECONDS_ALLOWED, program.kill)
        end.start()
        time.sleep(first_pause)
        written_in_pieces(program, pieces_of(text, length_of), pause)
        printed, complaint = program.communicate()
        end.cancel()
    if program.returncode != 0 or complaint:
        raise Failure(f"exit status {program.returncode}: {shown(complaint)}")
    check_statement(text, printed)


def longest_text():
    """A right text as long as may be."""
    return parts_of_size(random.Random(SEED), 2026, LONGEST_TEXT).text()


def check_small_pieces():
    """Small texts and the longest one, in pieces of 1 to 7 bytes."""
    source = random.Random(SEED)
    for length in PIECES:
        check_pieces(SAMPLE, lambda: length)
    for text in (SMALL, SAMPLE[:-1], SAMPLE + b"\n", longest_text(), longest_text() + b"\n"):
        check_pieces(text, lambda: source.choice(PIECES))


def check_large_pieces():
    """The longest text and longer ones, in pieces around the sizes that pipes and buffers
    like to have."""
    longest = longest_text()
    for text in (longest, longest + b"\n", longest * 2):
        for length in (511, 4_096, 4_097, 16_384, 65_535, 65_536, 65_537):
            check_pieces(text, lambda: length)


def check_slow_pieces():
    """The sample so slowly that the program waits for every piece."""
    source = random.Random(SEED)
    for lengths in ((1, 2, 3), (5, 6, 7), (len(SAMPLE) - 1,)):
        check_pieces(SAMPLE, lambda: source.choice(lengths), FIRST_PAUSE, SHORT_PAUSE)
    check_pieces(longest_text(), lambda: 3_001, FIRST_PAUSE, SHORT_PAUSE)


def check_no_text():
    """A pipe that is closed at once, or later, and an empty file."""
    check_pieces(b"", lambda: 1)
    check_pieces(b"", lambda: 1, FIRST_PAUSE)
    check_statement(b"", said(stdin=subprocess.DEVNULL))


def check_files():
    """From a file into a file: what is there afterwards is the statement and no more."""
    given, printed = scratch() / "text", scratch() / "statement"
    for text in (SAMPLE, longest_text(), longest_text() + b"\n", SAMPLE[:-1], b""):
        given.write_bytes(text)
        with given.open("rb") as source, printed.open("wb") as into:
            said(stdin=source, stdout=into)
        check_statement(text, printed.read_bytes())


def check_file_position():
    """A file is read from where it stands: what was read before is no part of the text."""
    given = scratch() / "text"
    given.write_bytes(b"read before\n" + SAMPLE)
    with given.open("rb", buffering=0) as source:
        source.readline()
        check_statement(SAMPLE, said(stdin=source))


def check_failures():
    """A folder cannot be read, which counts as the end of the text; a full device takes no byte,
    and there is nowhere to say so."""
    folder = os.open(scratch(), os.O_RDONLY)
    try:
        check_statement(b"", said(stdin=folder))
    finally:
        os.close(folder)
    with open("/dev/full", "wb") as full:
        said(input=SAMPLE, stdout=full)


TESTS = [
    ("pieces of 1 to 7 bytes", check_small_pieces),
    ("pieces of 511 to 65,537 bytes", check_large_pieces),
    ("pieces that the program waits for", check_slow_pieces),
    ("no text", check_no_text),
    ("from a file into a file", check_files),
    ("from the middle of a file", check_file_position),
    ("a read that fails, and a write", check_failures),
]


if __name__ == "__main__":
    run_tests(TESTS)
