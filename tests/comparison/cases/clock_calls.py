"""The groups of settlements around the Sunday the clocks go forward, called from C.

Lists have events on that Sunday or beside it, and books are level, so every line is known
beforehand. Everything is drawn from one seed, so the calls are the same in every run.
"""

import random
from itertools import product

from cases.checks import Case
from cases.clock_events import (
    ANYTHING, HOURS_BESIDE, NO_HOUR, STARTS, hours_from, sunday_of, weekends_after,
)
from cases.notice_lists import list_in, open_days, slots_of
from cases.settlement_books import only_needed, packed
from cases.settlement_calls import drawn_price, faulty_case, level_case
from second import energies, settlements, winters
from second.energies import HIGHEST_READING, MISSING, place_of

SEED = 2026

# A list around that Sunday may take so many weekend days before it.
WEEKENDS_BEFORE = 6

# With an event on that Sunday at each start, and some lists with none, so that it may serve.
SUNDAYS_STARTS = (*STARTS, None, None, None, None)


def list_around(source, winter, start):
    """Events on weekend days before that Sunday and after it, and on some weekdays after it: in
    one band or in both. One more on that Sunday that starts then, if anything does, and with it
    an evening event behind a morning one."""
    sunday = sunday_of(winter)
    before = energies.days_of_kind(winter, sunday)[:WEEKENDS_BEFORE]
    weekdays = set(range(sunday + 1, sunday + 6))
    days = {*before, *weekends_after(winter), *weekdays}.intersection(open_days(winter, 1))
    slots = slots_of(sorted(days), 1)
    listed = list_in(source, 1, source.sample(slots, source.randint(1, 8)))
    if start is not None:
        listed.append((sunday, *hours_from(source, start)))
    if start in range(6, 10):
        listed += list_in(source, 1, [(sunday, 16, 20)][:source.randrange(2)])
    return sorted(listed)


def with_number(winter, case, number):
    """The call with this number at the hour that the Sunday has not, built for the same."""
    book = list(settlements.lent_numbers(case.query.book))
    book[place_of(sunday_of(winter), NO_HOUR)] = number
    return case._replace(query=case.query._replace(book=packed(book)))


def lists_around_the_sunday():
    """Lists around that Sunday in every winter, in a book with faults at every reading that is not
    needed."""
    source = random.Random(SEED)
    cases = []
    for winter, start in product(winters.WINTERS, SUNDAYS_STARTS):
        listed = list_around(source, winter, start)
        right = level_case(source, winter, listed, drawn_price(source))
        book = only_needed(source, winter, settlements.lent_numbers(right.query.book), listed)
        made = right._replace(query=right.query._replace(book=packed(book)))
        cases.append(with_number(winter, made, source.choice(ANYTHING)))
    return cases


def anything_at_the_hour():
    """One list in every winter, whatever the hour that is not there holds."""
    source = random.Random(SEED)
    cases = []
    for winter in winters.WINTERS:
        listed = list_around(source, winter, source.choice((6, 7, None)))
        right = level_case(source, winter, listed, drawn_price(source))
        cases += [with_number(winter, right, number) for number in ANYTHING]
    return cases


def faults_beside_the_hour():
    """A fault at each of the first hours of that Sunday, and at hour 2 of a weekend day near it."""
    source = random.Random(SEED)
    cases = []
    for winter in winters.WINTERS:
        sunday = sunday_of(winter)
        near = [*energies.days_of_kind(winter, sunday)[:WEEKENDS_BEFORE], *weekends_after(winter)]
        hours = [(sunday, hour) for hour in HOURS_BESIDE]
        for pair in (*hours, *((day, NO_HOUR) for day in source.sample(near, 3))):
            listed = list_around(source, winter, source.choice((6, 7, 8, None)))
            number = source.choice((MISSING, MISSING, HIGHEST_READING + 1))
            faulty = {place_of(*pair): number}
            cases.append(faulty_case(source, winter, listed, drawn_price(source), faulty))
    return cases


CALL_GROUPS = (
    ("lists around the Sunday the clocks go forward", lists_around_the_sunday),
    ("anything at hour 2 of that Sunday", anything_at_the_hour),
    ("faults beside hour 2 of that Sunday", faults_beside_the_hour),
)
