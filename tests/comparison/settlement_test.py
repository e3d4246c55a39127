"""Compares the library, called from C, with the second program, call by call.

The driver makes both calls with lent bytes, and second/settlements.py is asked the same. The
answers and every byte of the outputs must be the same, and nothing else may be touched. Where a
call was built for an answer, the library must give it too.
The last line printed is "N passed, M failed".
"""

from collections import Counter
from datetime import date, timedelta
from fractions import Fraction
from functools import partial

import reach
from cases.calls import LINE_BYTES, both_of_calls, is_settlement, lines_of, output_before, told
from cases.checks import (
    check_built, check_every, check_group, check_happened, check_share, check_worth,
)
from cases.notice_lists import open_days
from cases.settlement_books import LARGEST_ENERGY
from cases.settlement_cases import GROUPS
from common.harness import Failure, run_tests
from second import energies, notices, numbers, settlements, winters
from second.notices import PROFILES

# Settlements that are mostly refused would compare few lines: this share of them must be
# accepted, and this many with a notice at least.
LEAST_ACCEPTED_PERCENT = 50
LEAST_ACCEPTED_WITH_LINES = 2_000

# In cents, exactly: 25 mornings that spare the most, at the highest price.
LARGEST_WORTH = settlements.worth(25 * LARGEST_ENERGY, 1_000_000)


# What can happen to a line, told by the library's own lines: the exact worth of all lines
# up to it, that of the lines before it, and the line.
MUST_HAPPEN = (
    ("a half, up to a line", lambda up_to, before, line: up_to.denominator == 2),
    ("half a cent, up to a line", lambda up_to, before, line: up_to == Fraction(1, 2)),
    (
        "a line would round otherwise by itself",
        lambda up_to, before, line: line.cents != settlements.rounded(up_to - before),
    ),
    ("energy above 0, no cents", lambda up_to, before, line: line.energy > 0 and line.cents == 0),
    ("energy not of whole Wh", lambda up_to, before, line: line.energy % 18 > 0),
    ("settled with energy 0", lambda up_to, before, line: line.code == 0 and line.energy == 0),
    ("unsettled behind a settled line", lambda up_to, before, line: line.code > 0 and before > 0),
    ("the largest worth", lambda up_to, before, line: up_to == LARGEST_WORTH),
)


# The tests.


def settled_rows(answered):
    """The lines of accepted settlements that have any, with the price."""
    rows = ((lines_of(case, given), case.query) for case, given in answered)
    return [(lines, query.price) for lines, query in rows if lines]


def column_of(query):
    """The call whose possible numbers are meant."""
    if is_settlement(query):
        return "settlement"
    return f"profile {query.profile}" if query.profile in PROFILES else "neither"


def check_every_number(answered):
    """Each possible number was given by each call at least once, each possible code by some
    line, and no other."""
    tally = Counter((column_of(case.query), given.number()) for case, given in answered)
    tally.update(("line", line.code) for lines, _ in settled_rows(answered) for line in lines)
    check_every(tally, numbers.LIST_CHECK | numbers.SETTLEMENT)


def kinds_taken(winter, days):
    """The kinds of days of which these are all that may have an event."""
    every, weekend = set(open_days(winter, 1)), notices.day_kinds(winter).weekend
    kinds = {"weekdays": every - weekend, "weekends": every & weekend}
    return [kind for kind, open_ones in kinds.items() if open_ones <= days]


def check_no_code_20(answered):
    """The library gave code 20 to no line, whatever days its list took: 100 of them, and in every
    winter all weekdays and all weekend days that may have an event."""
    most, taken = 0, set()
    for case, given in answered:
        lines = lines_of(case, given)
        if any(line.code == 20 for line in lines):
            raise Failure(f"{case.query} got {given}")
        if lines:
            days = set(settlements.lent_numbers(case.query.listed)[0::3])
            most = max(most, len(days))
            taken |= {(case.query.winter, kind) for kind in kinds_taken(case.query.winter, days)}
    print(f"  days with an event, at most: {most}; winters without a day of a kind: {len(taken)}")
    if most < notices.MOST_NOTICES or len(taken) < 2 * len(winters.WINTERS):
        raise Failure("lists could take more days")


def check_november():
    """Why no line of an accepted list has code 20: a notice is on day 30 or later, so no
    day of November carries an event, none is excluded, and five at least are of each kind."""
    for winter in winters.WINTERS:
        kinds = notices.day_kinds(winter)
        november = set(range(min(kinds.period)))
        both = (november & kinds.weekend, november - kinds.weekend)
        if november & kinds.excluded or min(map(len, both)) < energies.REFERENCE_DAYS:
            raise Failure(f"code 20 can be given in winter {winter}")


def back_is_unread(case):
    """Whether a call's book has no reading on the Sunday the clocks go back, the one of the book's
    first seven days."""
    first_days = [date(case.query.winter, 11, 1) + timedelta(day) for day in range(7)]
    day = next(day for day, on in enumerate(first_days) if on.isoweekday() == 7)
    book = settlements.lent_numbers(case.query.book)
    return set(book[energies.HOURS * day:energies.HOURS * (day + 1)]) == {energies.MISSING}


def check_back_never_read(answered):
    """In every winter all events were settled, on all weekend days that may have one, without a
    reading of the Sunday the clocks go back."""
    settled = set()
    for case, given in answered:
        lines = lines_of(case, given)
        if lines and not any(line.code for line in lines):
            days = set(settlements.lent_numbers(case.query.listed)[0::3])
            taken = "weekends" in kinds_taken(case.query.winter, days)
            settled |= {case.query.winter} if taken and back_is_unread(case) else set()
    print(f"  winters: {len(settled)}")
    if settled != set(winters.WINTERS):
        raise Failure("not in every winter")


def check_accepted(answered):
    """Enough settlements were accepted, and enough with lines."""
    answers = [given.answer for case, given in answered if is_settlement(case.query)]
    with_lines = len(settled_rows(answered))
    check_share(answers.count(0), len(answers), LEAST_ACCEPTED_PERCENT, "accepted")
    print(f"  with lines: {with_lines}")
    if with_lines < LEAST_ACCEPTED_WITH_LINES:
        raise Failure(f"fewer than {LEAST_ACCEPTED_WITH_LINES} with lines")


def check_untouched(answered):
    """A refusal changed no byte of the output, and an accepted call none past the last
    line."""
    refused = spare = 0
    for case, given in answered:
        if not is_settlement(case.query):
            continue
        filled = LINE_BYTES * len(lines_of(case, given))
        before = output_before(case.query.fill, case.query.length)
        if given.output[filled:] != before[filled:]:
            raise Failure(f"bytes that should stay were changed: {case.query}: {given}")
        refused += given.answer != 0 and case.query.length > 0
        spare += given.answer == 0 and case.query.length > filled
    print(f"  outputs of refused calls: {refused}; longer than needed: {spare}")
    if min(refused, spare) == 0:
        raise Failure("there were none of a kind")


def check_runs(answered):
    """Demand 3 on all lines that the library gave; their sums are those that C adds up."""
    check_worth(settled_rows(answered))


def check_all_happened(answered):
    """Everything that can happen to a line's cents happened to some."""
    rows = []
    for lines, price in settled_rows(answered):
        energy = 0
        for line in lines:
            before = settlements.worth(energy, price)
            energy += line.energy
            rows.append((settlements.worth(energy, price), before, line))
    check_happened(rows, MUST_HAPPEN)


def all_tests():
    """Every test, as its name and a check that raises Failure."""
    answered = []
    return [
        *((name, partial(check_group, make, both_of_calls, answered)) for name, make in GROUPS),
        ("what calls were built for", partial(check_built, told, answered)),
        ("every possible number and code was given", partial(check_every_number, answered)),
        ("code 20 cannot be given", partial(check_no_code_20, answered)),
        ("November has five days of each kind", check_november),
        ("the Sunday the clocks go back is not read", partial(check_back_never_read, answered)),
        ("enough settlements were accepted", partial(check_accepted, answered)),
        ("what should stay was not touched", partial(check_untouched, answered)),
        ("every run of lines is worth its cents", partial(check_runs, answered)),
        ("all that can happen to cents happened", partial(check_all_happened, answered)),
    ]


if __name__ == "__main__":
    run_tests(all_tests())
