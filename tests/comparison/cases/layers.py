"""Queries on the layers below the settlement, asked of the library and of the second program.

The library's part is the program driver/layers.c, which says how queries and answers are
written. A query on the calendar is (w, a, b), one on a list a ListQuery, and one on an event
the second program's Query.
"""

import re
import struct
from typing import NamedTuple

from cases import calls
from common.c_programs import CROSS_RUN, driver
from common.harness import Failure, run
from second import energies, notices, winters

CALENDAR, HOURS, ENERGY = 1, 2, 3


class ListQuery(NamedTuple):
    """A list check, with the list as numbers."""
    winter: int
    profile: int
    numbers: tuple


def written(groups):
    """Groups of numbers in the form the program reads: every number in ten digits and one byte
    more. An empty group leaves nothing."""
    lines = (b" ".join(b"%010d" % number for number in group) for group in groups if group)
    return b"".join(line + b"\n" for line in lines)


def ask(layer, groups):
    """The lines that the program prints for these queries on a layer."""
    program = driver("layers", crate="probe")
    printed = run(CROSS_RUN, program, input=written([(layer,), *groups])).stdout
    *lines, rest = printed.decode("ascii", "backslashreplace").split("\n")
    if rest:
        raise Failure(f"the last line is not ended by byte 10: {rest}")
    return lines


# What both programs say.


def both_of_days(queries):
    """To queries on the calendar."""
    return ask(CALENDAR, queries), [winters.line(*query) for query in queries]


def both_of_lists(queries):
    """To list checks: the verdict is that of the call for C, and the event hours of an accepted
    list follow it."""
    given = calls.ask([
        calls.Check(winter, profile, struct.pack(f"<{len(numbers)}I", *numbers))
        for winter, profile, numbers in queries
    ])
    accepted = [query.numbers for query, one in zip(queries, given) if one.answer == 0]
    hours = iter(ask(HOURS, [group for numbers in accepted for group in ((len(numbers),), numbers)]))
    said = [
        f"{one.number()},{one.place()}" + (f" {next(hours)}" if one.answer == 0 else "")
        for one in given
    ]
    return said, [notices.line(*query) for query in queries]


def ask_events(queries):
    """What the library says to queries on events."""
    groups = []
    for winter, numbers, length, seed, low, spread, changes, *event in queries:
        header = (winter, len(numbers), length, seed, low, spread, len(changes), *event)
        groups += [header, numbers, [number for pair in changes for number in pair]]
    return ask(ENERGY, groups)


def both_of_events(queries):
    """To queries on events."""
    return ask_events(queries), [energies.line(query) for query in queries]


# What a line tells.


def fields(line):
    """The answers of a line on the calendar by call; the query before them is left out."""
    parts = (field.partition("=") for field in line.split(" ")[1:])
    return {call: answer for call, _, answer in parts}


def number_and_place(line):
    """The pair at the start of a line on a list, None if there is none."""
    found = re.match(r"(\d+),(\d+)(?: |$)", line)
    return tuple(int(part) for part in found.groups()) if found else None


def pairs(line, name, sign):
    """The pairs of numbers in one field of an accepted list's line."""
    found = re.search(rf" {name}=((?:\d+{re.escape(sign)}\d+,?)*)(?: |$)", line)
    if not found:
        raise Failure(f"{name}= cannot be read in the line: {line}")
    both = (pair.split(sign) for pair in found[1].split(",") if pair)
    return [(int(one), int(other)) for one, other in both]


class Told(NamedTuple):
    """What a line on an event tells: a refusal or a code, its number, and the energy."""
    kind: str
    number: int
    energy: int


def told(line):
    """What a line on an event tells, nothing that is possible if it cannot be read."""
    found = re.fullmatch(r"([1-9]\d*)|0,(\d+),\d+,(\d+)", line)
    if not found:
        return Told("unreadable", 0, 0)
    refusal, code, energy = found.groups()
    return Told("refusal", int(refusal), 0) if refusal else Told("code", int(code), int(energy))
