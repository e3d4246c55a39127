"""Calls the library as a careless or hostile host program might, and holds it to its promises.

The program is driver/hostile.c: any lengths, addresses, numbers and bytes, each lent part at
the edge of a page that may not be touched. It ends with a failure by itself where a call
touched, changed or answered what it may not; trial.h says what that is. It runs under
sanitizers with the library compiled for this processor, and with the delivered archive. Here
it is looked at whether each possible answer was given: a run that never gets past the lengths
would show little. The last line printed is "N passed, M failed".
"""

import os
from collections import Counter
from functools import cache, partial
from typing import NamedTuple

import reach
from cases.checks import check_every
from common.c_programs import CROSS_RUN, DRIVERS, build_delivered, build_sanitized
from common.harness import Failure, run, run_tests, scratch
from second import numbers

SOURCES = [DRIVERS / f"{part}.c" for part in ("hostile", "trial", "material", "draw", "parts")]

# The numbers that each call can give, and the codes of lines; those of the medium-power settlement
# are told as events.
POSSIBLE = {
    "check": sorted(set().union(*numbers.LIST_CHECK.values())),
    "settle": numbers.SETTLEMENT["settlement"],
    "line": numbers.SETTLEMENT["line"],
    "power": numbers.POWER["power"],
    "event": numbers.POWER["line"],
}

# The calls take nothing from the heap, and looking for leaks takes as long as all of them.
WITHOUT_LEAKS = {**os.environ, "ASAN_OPTIONS": "detect_leaks=0"}


class Extent(NamedTuple):
    """How much is tried: the longest of the lengths that are all tried with each other, how
    many lists and books are drawn, and how many calls that makes at least."""
    longest: int
    drawn: int
    least_calls: int


# In an emulator a call takes some hundred times as long.
SANITIZED_EXTENT = Extent(longest=36, drawn=50_000, least_calls=800_000)
DELIVERED_EXTENT = Extent(longest=8, drawn=600, least_calls=45_000)

SEEDS = {"end": 2026, "start": 2027}


@cache
def sanitized():
    """The command that runs the program under sanitizers."""
    return (build_sanitized("c11", SOURCES, scratch() / "hostile-sanitized"),)


@cache
def delivered():
    """The command that runs the program with the delivered archive."""
    return CROSS_RUN, build_delivered("c11", SOURCES, scratch() / "hostile")


def check_calls(command, side, extent):
    """The program finds nothing wrong, and each possible answer was among those it got."""
    words = (side, SEEDS[side], extent.longest, extent.drawn)
    printed = run(*command(), *map(str, words), env=WITHOUT_LEAKS).stdout.decode()
    total, *rows = (line.rsplit(" ", 1) for line in printed.splitlines())
    print(f"  calls: {total[1]}")
    if int(total[1]) < extent.least_calls:
        raise Failure(f"fewer than {extent.least_calls}")
    counts = ((*name.split(" "), int(count)) for name, count in rows)
    check_every(Counter({(call, int(one)): count for call, one, count in counts}), POSSIBLE)


def all_tests():
    """Every test, as its name and a check that raises Failure."""
    ways = (
        ("under sanitizers", sanitized, SANITIZED_EXTENT),
        ("with the delivered archive", delivered, DELIVERED_EXTENT),
    )
    sides = (("ending before", "end"), ("starting behind", "start"))
    return [
        (f"{way}, parts {where} a guard page", partial(check_calls, command, side, extent))
        for way, command, extent in ways
        for where, side in sides
    ]


if __name__ == "__main__":
    run_tests(all_tests())
