"""Runs of the program `statement`: what it prints for a text, and what that says.

A command is a list of words, the first of them a path. The program is compared with the
second program two texts at a time, since each text is a process of its own.
"""

import re
from concurrent.futures import ThreadPoolExecutor
from functools import cache
from typing import NamedTuple

from cases.checks import shown
from common.harness import ROOT, Failure, run
from second.settlements import Line
from second.statements import statement

AT_A_TIME = 2

REFUSED = re.compile(rb"refused=([0-9]+),([0-9]+)\n")
STATEMENT = re.compile(
    rb"winter=([0-9]+)\nprice=([0-9]+)\nevents=([0-9]+)\n"
    rb"((?:line=[0-9]+(?:,[0-9]+){6}\n)*)"
    rb"energy=([0-9]+)\ntotal=([0-9]+)\n"
)


class Printed(NamedTuple):
    """What a printed statement says: the refusal number, 0 if none, and its place, then what
    an accepted text got."""
    number: int
    place: int
    winter: int = 0
    price: int = 0
    events: int = 0
    notices: tuple = ()
    lines: tuple = ()
    energy: int = 0
    cents: int = 0


def numbers_of(line):
    """The numbers of a printed line that holds several."""
    _, numbers = line.split(b"=")
    return tuple(int(number) for number in numbers.split(b","))


@cache
def read_statement(output):
    """What a printed statement says; it is asked of each more than once."""
    if found := REFUSED.fullmatch(output):
        return Printed(*map(int, found.groups()))
    found = STATEMENT.fullmatch(output)
    if not found:
        raise Failure(f"this is no statement: {shown(output)}")
    rows = [numbers_of(line) for line in found[4].splitlines()]
    return Printed(
        0, 0, *(int(found[group]) for group in (1, 2, 3)),
        tuple(row[:3] for row in rows), tuple(Line(*row[3:]) for row in rows),
        *(int(found[group]) for group in (5, 6)),
    )


def told(case, printed):
    """Number and place, and as many lines as the case was built for."""
    got = read_statement(printed)
    return (got.number, got.place, *got.lines)[:len(case.built_for)]


@cache
def program_words():
    """The command that runs the program. scripts/program would look its words up for every
    text, which takes as long as the run itself."""
    asked = run(ROOT / "scripts" / "program", "--words", "statement")
    return tuple(asked.stdout.decode().splitlines())


def said(command=None, **streams):
    """What the program, or another command, prints. It ends with exit status 0 and writes
    nothing on standard error, whatever the text is."""
    done = run(*(command or program_words()), **streams)
    if done.stderr:
        raise Failure(f"on standard error: {shown(done.stderr)}")
    return done.stdout


def said_and_right(text, command=None):
    """What the program prints for a text, and what the second program does."""
    return said(command, input=text), statement(text)


def both_of_texts(texts):
    """What the program prints for each of these texts, and what the second program does."""
    with ThreadPoolExecutor(AT_A_TIME) as pool:
        rows = list(pool.map(said_and_right, texts))
    return [printed for printed, _ in rows], [right for _, right in rows]
