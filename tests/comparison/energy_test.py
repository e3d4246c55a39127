"""Compares the spared energy with the second program, event by event.

Both are asked the same queries and must print the same lines. Where a query was built for a
line, the library must print it too.
The last line printed is "N passed, M failed".
"""

import random
from collections import Counter
from functools import partial
from itertools import product

import reach
from cases.checks import check_built, check_every, check_group, check_happened, check_share
from cases.clock_events import STARTS, SUNDAY_MUST_BE, sunday_to, warm_up_of
from cases.energy_cases import GROUPS, SEED
from cases.event_books import (
    FAULTY_BOOKS, LIMIT, SOUND_BOOKS, drawn_query, lengths, period, step, stepped_book, with_book,
)
from cases.layers import ask_events, told
from common.harness import Failure, run_tests
from second import energies, numbers, winters
from second.notices import Notice

# Queries that are mostly refused or unsettled would compare few energies: this share of all
# of them must be settled, with code 0.
LEAST_SETTLED_PERCENT = 60


# What happens on the way to a settled energy, told by the second program's fractions.


def limit_against(sign):
    """The limit applies, and 3A - B lies so to 2B."""
    def happens(query, spared):
        lies = (spared.excess > spared.most) - (spared.excess < spared.most)
        return spared.is_limited() and lies == sign
    return happens


def trial_at(steps):
    """The trial is so many of its steps above 720,000."""
    def happens(query, spared):
        return energies.eighteenths(spared.trial) == LIMIT + steps * step(*lengths(query))
    return happens


def above_limit(query, spared):
    """3A - B is above 2B, whether or not the limit applies."""
    return spared.excess > spared.most


def all_of(one, other):
    return lambda query, spared: one(query, spared) and other(query, spared)


MUST_HAPPEN = (
    ("trial exactly 720,000", trial_at(0)),
    ("trial one step above", trial_at(1)),
    ("trial one step below", trial_at(-1)),
    # Here one step decides whether the limit takes anything away.
    ("exactly 720,000, 3A - B above 2B", all_of(trial_at(0), above_limit)),
    ("one step above, 3A - B above 2B", all_of(trial_at(1), above_limit)),
    ("limit", lambda query, spared: spared.is_limited()),
    ("limit, 3A - B above 2B", limit_against(1)),
    ("limit, 3A - B equal to 2B", limit_against(0)),
    ("limit, 3A - B below 2B", limit_against(-1)),
    ("adjustment negative", lambda query, spared: spared.excess < 0),
    ("adjustment 0", lambda query, spared: spared.excess == 0),
    ("floor", lambda query, spared: spared.unfloored < 0),
    ("floor after the limit", lambda query, spared: spared.is_limited() and spared.unfloored < 0),
    ("exactly 0 without the floor", lambda query, spared: spared.unfloored == 0),
)


# The tests.


def both_and_spared(queries, spared):
    """What both programs say; `spared` gathers how the second program came to its energies."""
    found = [energies.answer(query) for query in queries]
    spared += [(query, one.spared) for query, one in zip(queries, found) if one.spared]
    return ask_events(queries), [energies.printed(one) for one in found]


def check_every_number(answered):
    """Each possible refusal and code was given at least once, and no other."""
    rows = [told(line) for _, line in answered]
    check_every(Counter((row.kind, row.number) for row in rows), numbers.EVENT)


def check_settled(answered):
    """Enough queries were settled."""
    rows = [told(line) for _, line in answered]
    amounts = [row.energy for row in rows if (row.kind, row.number) == ("code", 0)]
    check_share(len(amounts), len(rows), LEAST_SETTLED_PERCENT, "settled")
    above = sum(energy > 0 for energy in amounts)
    print(f"  energies above 0: {above}; the largest: {max(amounts, default=0)}")


def check_second_books():
    """The second program tells every reading of a book as it is made step by step."""
    source = random.Random(SEED)
    for low, spread in (*SOUND_BOOKS, *FAULTY_BOOKS):
        query = with_book(source, drawn_query(source), [(low, spread)])
        changes = [(source.randrange(3_720), source.randrange(2**32)) for _ in range(60)]
        query = query._replace(changes=(*changes, *changes[:2], (changes[0][0], 5)))
        hours = list(product(range(query.length // 24), range(24)))
        if list(energies.readings_at(query, hours).values()) != stepped_book(query):
            raise Failure(f"the second program's book is another one: {query}")


def check_second_warm_up():
    """The second program has the warm-up hours of the tables, on every day at every start."""
    for winter in winters.WINTERS:
        for day, start in product(period(winter), STARTS):
            said = energies.warm_up_hours(winter, Notice(day, start, start + 1))
            if said != warm_up_of(winter, day, start):
                raise Failure(f"winter {winter}, day {day}, start {start}: {said}")


def check_sunday(answered):
    """The Sunday the clocks go forward was all that it can be to a settled event."""
    settled = (case.query for case, line in answered if told(line)[:2] == ("code", 0))
    check_happened([(sunday_to(query),) for query in settled], SUNDAY_MUST_BE)


def all_tests():
    """Every test, as its name and a check that raises Failure."""
    answered, spared = [], []
    both = partial(both_and_spared, spared=spared)
    return [
        ("second program's books step by step", check_second_books),
        ("second program's warm-up hours by the tables", check_second_warm_up),
        *((name, partial(check_group, make, both, answered)) for name, make in GROUPS),
        ("lines that queries were built for", partial(check_built, lambda _, line: line, answered)),
        ("every possible number was given", partial(check_every_number, answered)),
        ("all that can happen to an energy happened", partial(check_happened, spared, MUST_HAPPEN)),
        ("all that the Sunday can be to an event happened", partial(check_sunday, answered)),
        ("enough queries were settled", partial(check_settled, answered)),
    ]


if __name__ == "__main__":
    run_tests(all_tests())
