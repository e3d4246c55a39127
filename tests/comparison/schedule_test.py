"""Compares the list check with the second program, list by list.

Both are asked the same queries and must print the same lines: number and place, and of an
accepted list the masks of its days and the events that come back from them. Where a list was
built for a number and a place, the library must give these too.
The last line printed is "N passed, M failed".
"""

from collections import Counter
from functools import partial
from itertools import pairwise

import reach
from cases.checks import ACCEPTED, check_built, check_every, check_group, check_share
from cases.layers import both_of_lists, number_and_place, pairs
from cases.schedule_cases import GROUPS
from common.harness import Failure, run_tests
from second import numbers
from second.notices import PROFILES

# Lists that are mostly refused would compare few masks: this share of all lists must be
# accepted, and this many with several notices.
LEAST_ACCEPTED_PERCENT = 25
LEAST_ACCEPTED_LONGER = 4_000

# Of a notice's hours: none, none in a band, not all in one. A list of several notices has them at
# its first, at its last and between.
HOUR_NUMBERS = (13, 26, 27)
WHERES = ("first", "between", "last")

# No rule says it: profile 2's bands and lengths leave as many hours between any two events.
LEAST_HOURS_BETWEEN = 7


def check_numbers_and_places(answered):
    """The lists built for a number and a place got these: for a broken list the place is
    the index of its first broken notice."""
    check_built(lambda case, line: number_and_place(line), answered)


def check_every_number(answered):
    """Each possible number was given at least once, and no other."""
    tally = Counter()
    for case, line in answered:
        profile = case.query.profile
        number, _ = number_and_place(line) or (-1, 0)
        tally[f"profile {profile}" if profile in PROFILES else "neither", number] += 1
    check_every(tally, numbers.LIST_CHECK)


def check_hours_everywhere(answered):
    """Each number of the hours was given to the first notice of a list, to the last of one and to
    one between, under either profile."""
    tally = Counter()
    for case, line in answered:
        number, place = number_and_place(line) or (-1, 0)
        if case.query.profile in PROFILES and number in HOUR_NUMBERS:
            last = len(case.query.numbers) // 3 - 1
            where = "first" if place == 0 else "last" if place == last else "between"
            tally[f"profile {case.query.profile}, {where}", number] += last > 0
    wheres = [f"profile {profile}, {where}" for profile in PROFILES for where in WHERES]
    check_every(tally, {where: HOUR_NUMBERS for where in wheres})


def accepted(answered):
    """The queries of the accepted lists, with their lines."""
    rows = ((case.query, line) for case, line in answered)
    return [(query, line) for query, line in rows if number_and_place(line) == ACCEPTED]


def check_accepted(answered):
    """Enough lists were accepted, and enough of several notices."""
    rows = accepted(answered)
    check_share(len(rows), len(answered), LEAST_ACCEPTED_PERCENT, "accepted")
    longer = sum(len(query.numbers) > 3 for query, _ in rows)
    print(f"  with several notices: {longer}")
    if longer < LEAST_ACCEPTED_LONGER:
        raise Failure(f"fewer than {LEAST_ACCEPTED_LONGER} with several notices")


def check_hours_between(answered):
    """In the accepted lists of profile 2, by the events that the library gives. The bands 6-9
    and 16-20 of one day are just 7 hours apart, so 7 itself must turn up."""
    tally = Counter()
    for query, line in accepted(answered):
        if query.profile == 2:
            events = [
                (24 * day + start, 24 * day + start + length)
                for day, (start, length) in zip(query.numbers[::3], pairs(line, "events", "+"))
            ]
            tally.update(later[0] - event[1] for event, later in pairwise(events))
    if not tally:
        raise Failure("no list with two events was accepted")
    print(f"  pairs of events: {tally.total()}, the nearest {min(tally)} hours apart")
    if min(tally) != LEAST_HOURS_BETWEEN:
        raise Failure(f"{LEAST_HOURS_BETWEEN} hours should be the least")


def all_tests():
    """Every test, as its name and a check that raises Failure."""
    answered = []
    return [
        *((name, partial(check_group, make, both_of_lists, answered)) for name, make in GROUPS),
        (
            "number and place that lists were built for",
            partial(check_numbers_and_places, answered),
        ),
        ("every possible number was given", partial(check_every_number, answered)),
        (
            "13, 26 and 27 at the first notice, the last and between",
            partial(check_hours_everywhere, answered),
        ),
        ("enough lists were accepted", partial(check_accepted, answered)),
        (
            f"profile 2: events are {LEAST_HOURS_BETWEEN} hours apart or more",
            partial(check_hours_between, answered),
        ),
    ]


if __name__ == "__main__":
    run_tests(all_tests())
