"""Compares the medium-power settlement, called from C, with the second program, call by call.

The driver makes the call with lent bytes, and second/power.py is asked the same. The answers and
every byte of both outputs must be the same, and nothing else may be touched. Where a call was
built for an answer, the library must give it too.
The last line printed is "N passed, M failed".
"""

from collections import Counter
from fractions import Fraction
from functools import partial
from typing import NamedTuple

import reach
from cases.calls import (
    LINE_BYTES, TOTALS_BYTES, both_of_calls, lines_of, output_before, told, totals_of,
)
from cases.checks import check_built, check_every, check_group, check_happened, check_share
from cases.notice_lists import notices_in, room
from cases.power_calls import BOUNDS
from cases.power_cases import GROUPS
from common.harness import Failure, run_tests
from second import numbers, power, settlements
from second.energies import place_of

# Calls that are mostly refused would compare few lines and credits: this share of them must be
# accepted, and this many with a settled event at least.
LEAST_ACCEPTED_PERCENT = 45
LEAST_SETTLED = 3_000

LARGEST_CREDIT = 46_170_000


class Row(NamedTuple):
    """An accepted call: how many hours its events have, its lines and totals, and by these totals
    the effective power in kW and its worth in cents, exactly; and whether a settled event drew more
    than its reference."""
    hours: tuple
    lines: tuple
    total: int
    count: int
    cents: int
    power: Fraction
    worth: Fraction
    floored: bool


def rates_that_happen():
    """A name and a test of a row for every rate."""
    for dollars in (0, *(dollars for _, dollars in power.RATES)):
        name = f"{float(dollars):.2f} dollars a kW"
        yield name, lambda row, dollars=dollars: row.count and power.rate(row.power) == dollars


def powers_that_happen():
    """A name and a test of a row for a power at every bound, and for those within a kW of it that
    are no whole number of kW."""
    for bound in BOUNDS:
        yield f"just {bound} kW", lambda row, bound=bound: row.power == bound
        yield f"less than {bound} kW by less than 1", (
            lambda row, bound=bound: bound - 1 < row.power < bound
        )
        yield f"more than {bound} kW by less than 1", (
            lambda row, bound=bound: bound < row.power < bound + 1
        )


def settled_lines(row):
    """The lines of settled events."""
    return [line for line in row.lines if line.code == 0]


# What can happen to an accepted call, told by the library's own lines and totals.
MUST_HAPPEN = (
    *rates_that_happen(),
    *powers_that_happen(),
    ("a half of a cent", lambda row: row.worth.denominator == 2),
    ("a mean of no whole twelfths of a W", lambda row: row.count and row.total % row.count),
    ("a reduction of no whole W", lambda row: any(line.reduction % 12 for line in row.lines)),
    (
        "settled with reduction 0",
        lambda row: any(line.reduction == 0 for line in settled_lines(row)),
    ),
    ("settled, drawn above the reference", lambda row: row.floored),
    ("settled and unsettled events", lambda row: 0 < row.count < len(row.lines)),
    ("unsettled events alone", lambda row: row.lines and row.count == 0),
    ("no events", lambda row: not row.lines),
    ("the largest credit", lambda row: row.cents == LARGEST_CREDIT),
)


# The tests.


def row_of(query, lines, totals):
    """An accepted call as a row."""
    lent = (query.book, query.listed, query.references)
    book, numbers_listed, references = (settlements.lent_numbers(part) or () for part in lent)
    listed = notices_in(numbers_listed)
    hours = tuple(map(room, listed))
    drawn = [sum(book[place_of(day, s):place_of(day, e)]) for day, s, e in listed]
    floored = any(
        line.code == 0 and wh > reference * h
        for line, wh, reference, h in zip(lines, drawn, references, hours)
    )
    total, count, _ = totals
    mean = Fraction(total, 12_000 * count) if count else Fraction(0)
    return Row(hours, lines, *totals, mean, power.exact_credit(mean), floored)


def accepted_rows(answered):
    """The accepted calls that have room for their totals, as rows."""
    return [
        row_of(case.query, lines_of(case, given), totals_of(case, given))
        for case, given in answered
        if given.answer == 0 and len(given.totals) >= TOTALS_BYTES
    ]


def check_every_number(answered):
    """Each possible number was given by the call at least once, each possible code by some line,
    and no other."""
    tally = Counter(("power", given.number()) for _, given in answered)
    lines = (line for case, given in answered for line in lines_of(case, given))
    tally.update(("line", line.code) for line in lines)
    check_every(tally, numbers.POWER)


def check_accepted(answered):
    """Enough calls were accepted, and enough with a settled event."""
    answers = [given.answer for _, given in answered]
    settled = sum(row.count > 0 for row in accepted_rows(answered))
    check_share(answers.count(0), len(answers), LEAST_ACCEPTED_PERCENT, "accepted")
    print(f"  with a settled event: {settled}")
    if settled < LEAST_SETTLED:
        raise Failure(f"fewer than {LEAST_SETTLED} with a settled event")


def check_untouched(answered):
    """A refusal changed no byte of either output, and an accepted call none past the last line or
    the last total."""
    tally = Counter()
    for case, given in answered:
        query, accepted = case.query, given.answer == 0
        written = (LINE_BYTES * len(lines_of(case, given)), TOTALS_BYTES * accepted)
        lengths = (query.length, query.totals_length)
        outputs = (given.output, given.totals)
        for name, filled, length, after in zip(("lines", "totals"), written, lengths, outputs):
            if after[filled:] != output_before(query.fill, length)[filled:]:
                raise Failure(f"bytes that should stay were changed: {query}: {given}")
            tally[name, accepted] += length > filled
    for (name, accepted), count in sorted(tally.items()):
        kind = "longer than needed" if accepted else "of refused calls"
        print(f"  {name} {kind}: {count}")
    if len(+tally) < 4:
        raise Failure("there were none of a kind")


def check_totals(answered):
    """Rules 11.4 and 11.10 and the demand of rule 10.11 on all that the library gave: reductions
    are the twelfths of their energies, totals those of their lines, and the credit is the nearest
    cent to the exact one, the higher of two that are as near."""
    for row in accepted_rows(answered):
        if any(h * line.reduction != 12 * line.energy for h, line in zip(row.hours, row.lines)):
            raise Failure(f"a reduction is not that of its energy: {row}")
        if row.total != sum(line.reduction for line in row.lines):
            raise Failure(f"the sum is not that of the lines: {row}")
        if row.count != len(settled_lines(row)):
            raise Failure(f"the count is not that of the lines: {row}")
        if not -Fraction(1, 2) < row.cents - row.worth <= Fraction(1, 2):
            raise Failure(f"the credit is not the nearest: {row}")


def check_all_happened(answered):
    """Everything that can happen to a power and its credit happened to some."""
    check_happened([(row,) for row in accepted_rows(answered)], MUST_HAPPEN)


def all_tests():
    """Every test, as its name and a check that raises Failure."""
    answered = []
    return [
        *((name, partial(check_group, make, both_of_calls, answered)) for name, make in GROUPS),
        ("what calls were built for", partial(check_built, told, answered)),
        ("every possible number and code was given", partial(check_every_number, answered)),
        ("enough calls were accepted", partial(check_accepted, answered)),
        ("what should stay was not touched", partial(check_untouched, answered)),
        ("totals are those of the lines", partial(check_totals, answered)),
        ("all that can happen to a credit happened", partial(check_all_happened, answered)),
    ]


if __name__ == "__main__":
    run_tests(all_tests())
