"""Compares the program `statement` with the second program, text by text.

The program and second/statements.py are given the same texts and must print the same bytes.
Where a text was built for an answer, the program must give it too.
The last line printed is "N passed, M failed".
"""

from collections import Counter, defaultdict
from functools import partial

import reach
from cases.checks import check_built, check_every, check_group, check_share, check_worth
from cases.statement_cases import GROUPS
from cases.statement_runs import both_of_texts, read_statement, told
from cases.text_calls import check_outputs
from common.harness import Failure, run_tests
from second import numbers, winters

# The numbers that are given with a place, and the first place that each of them can have.
# The winter's hours last for 25 notices at least.
FIRST_PLACES = {10: 0, 11: 0, 13: 0, 26: 0, 27: 0, 15: 1, 16: 1, 18: 25, 30: 1, 31: 5}

# Texts that are mostly refused would compare few lines: this share of them must be
# accepted, and this many with a notice at least.
LEAST_ACCEPTED_PERCENT = 20
LEAST_ACCEPTED_WITH_LINES = 600


def statements(answered):
    """What the printed statements say."""
    return [read_statement(printed) for _, printed in answered]


def accepted(answered):
    """What the accepted texts got."""
    return [statement for statement in statements(answered) if statement.number == 0]


def check_every_number(answered):
    """Each possible number and each possible code was given at least once, and no other."""
    rows = statements(answered)
    tally = Counter(("text", row.number) for row in rows)
    tally.update(("line", line.code) for row in rows for line in row.lines)
    check_every(tally, numbers.TEXT)


def check_places(answered):
    """Each number that has a place was given at its first place and at others, and numbers
    without a place were given at 0."""
    places = defaultdict(set)
    for row in statements(answered):
        places[row.number].add(row.place)
    for number, first in FIRST_PLACES.items():
        if min(places[number], default=None) != first or len(places[number]) < 2:
            raise Failure(f"{number}, first at {first}, was given at {sorted(places[number])}")
    for number in places.keys() - FIRST_PLACES:
        if places[number] != {0}:
            raise Failure(f"{number} has no place, and was given at {sorted(places[number])}")
    print("  " + "  ".join(f"{number}: {len(places[number])}" for number in FIRST_PLACES))


def check_accepted(answered):
    """Enough texts were accepted, and enough with lines."""
    rows = accepted(answered)
    check_share(len(rows), len(answered), LEAST_ACCEPTED_PERCENT, "accepted")
    with_lines = sum(bool(row.lines) for row in rows)
    print(f"  with lines: {with_lines}")
    if with_lines < LEAST_ACCEPTED_WITH_LINES:
        raise Failure(f"fewer than {LEAST_ACCEPTED_WITH_LINES} with lines")


def check_every_winter(answered):
    """A text of every winter was accepted, and of no other year."""
    tally = Counter(("winter", row.winter) for row in accepted(answered) if row.lines)
    check_every(tally, {"winter": winters.WINTERS})


def check_totals(answered):
    """The printed totals are the sums of the printed lines, and there are as many lines as
    it says."""
    rows = accepted(answered)
    if not rows:
        raise Failure("there was no statement")
    for row in rows:
        energy = sum(line.energy for line in row.lines)
        cents = sum(line.cents for line in row.lines)
        if (row.events, row.energy, row.cents) != (len(row.lines), energy, cents):
            raise Failure(f"the lines do not come to the totals: {row}")


def check_runs(answered):
    """Demand 3 on the lines of every statement."""
    check_worth((row.lines, row.price) for row in accepted(answered) if row.lines)


def all_tests():
    """Every test, as its name and a check that raises Failure."""
    answered = []
    return [
        *((name, partial(check_group, make, both_of_texts, answered)) for name, make in GROUPS),
        ("the call on a text: outputs of many lengths", check_outputs),
        ("what texts were built for", partial(check_built, told, answered)),
        ("every possible number and code was given", partial(check_every_number, answered)),
        ("numbers were given at many places", partial(check_places, answered)),
        ("enough texts were accepted", partial(check_accepted, answered)),
        ("every winter was accepted", partial(check_every_winter, answered)),
        ("totals are the sums of the lines", partial(check_totals, answered)),
        ("every run of lines is worth its cents", partial(check_runs, answered)),
    ]


if __name__ == "__main__":
    run_tests(all_tests())
