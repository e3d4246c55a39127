"""The groups of events around the Sunday the clocks go forward.

What that Sunday does to an event stands in tables here, to which the second program is held, and
the reference days follow from them: so most lines are known beforehand. Hour 2 of that Sunday
holds any number. Everything is drawn from one seed, so the events are the same in every run.
"""

import random
from datetime import date, timedelta
from functools import cache
from itertools import product
from typing import NamedTuple

from cases.checks import Case
from cases.event_books import (
    EVENT_HOURS, FAULTS, SOUND_BOOKS, bare_query, drawn_sums, lengths, marked, settled, with_book,
    with_readings,
)
from cases.notice_lists import flat
from second import energies, notices, winters
from second.energies import HIGHEST_READING, MISSING, REFERENCE_DAYS, place_of

SEED = 2026

# The warm-up hours by start, on that Sunday and on any other day.
ON_THE_SUNDAY = {
    6: (0, 1, 3), 7: (1, 3, 4), 8: (3, 4, 5), 9: (4, 5, 6),
    16: (12, 13), 17: (13, 14), 18: (14, 15), 19: (15, 16),
}
ON_ANOTHER_DAY = ON_THE_SUNDAY | {6: (1, 2, 3), 7: (2, 3, 4)}
STARTS = tuple(ON_THE_SUNDAY)

# The hour that the Sunday has not, and what its place in the book may hold: the missing mark,
# readings, and numbers that are none.
NO_HOUR = 2
ANYTHING = (MISSING, 0, 1_234, HIGHEST_READING, HIGHEST_READING + 1, MISSING - 1)

# The hours beside it at which warm-ups differ.
HOURS_BESIDE = range(6)

# So many days before an event, of its kind, may be taken by others.
NEAR = 10


# What is known beforehand.


@cache
def sunday_of(winter):
    """That Sunday's book day: of 8 to 14 March the one that is a Sunday."""
    first = date(winter, 11, 1)
    week = [date(winter + 1, 3, 8) + timedelta(days) for days in range(7)]
    return next((on - first).days for on in week if on.strftime("%w") == "0")


def warm_up_by(sunday, day, start):
    """The warm-up hours by the tables, where the clocks go forward on this Sunday."""
    return (ON_THE_SUNDAY if day == sunday else ON_ANOTHER_DAY)[start]


def warm_up_of(winter, day, start):
    """The warm-up hours by the tables."""
    return warm_up_by(sunday_of(winter), day, start)


def unmarked_before(winter, taken, day):
    """The days before that might serve an event on a day, the nearest first, whatever their
    hours."""
    return [before for before in energies.days_of_kind(winter, day) if before not in taken]


def references_by(sunday, winter, taken, day, start):
    """The reference days where these days are taken by events and the clocks go forward on this
    Sunday: where hour 2 is one of the event's warm-up hours it does not serve, else it does."""
    passed_over = {sunday} if NO_HOUR in warm_up_by(sunday, day, start) else set()
    return unmarked_before(winter, {*taken, *passed_over}, day)[:REFERENCE_DAYS]


def known_references(winter, taken, day, start):
    """The reference days where these days are taken by events."""
    return references_by(sunday_of(winter), winter, taken, day, start)


def weekends_after(winter):
    """The Saturdays and Sundays after that Sunday, up to the end of March."""
    weekend = notices.day_kinds(winter).weekend
    return sorted(day for day in weekend if day > sunday_of(winter))


# Events.


def taken_days(source, winter, day):
    """Days that other events take: any of those near before the event's day, that Sunday seldom,
    and now and then the event's own day."""
    near = energies.days_of_kind(winter, day)[:NEAR]
    taken = set(source.sample(near, source.choice((0, 0, 1, 2, 4, 8))))
    if source.randrange(4):
        taken.discard(sunday_of(winter))
    return [*sorted(taken), *[day] * source.randrange(2)]


def with_anything(source, winter, case):
    """The case with any number at the hour that is not there."""
    at = sunday_of(winter), NO_HOUR
    return case._replace(query=with_readings(case.query, {at: source.choice(ANYTHING)}))


def known_case(source, winter, day, hours):
    """An event with its needed readings, and no other in the book: its line follows from their
    sums."""
    taken = taken_days(source, winter, day)
    query = bare_query(winter, flat(marked(source, taken)), day, hours)
    references = known_references(winter, taken, day, hours[0])
    made = settled(source, query, references, drawn_sums(source, *lengths(query)))
    return with_anything(source, winter, made)


def hours_from(source, start):
    """Hours of an event that starts then."""
    return source.choice([hours for hours in EVENT_HOURS if hours[0] == start])


# The groups.


def events_on_the_sunday():
    """Every start and end on that Sunday, in every winter."""
    source = random.Random(SEED)
    return [
        known_case(source, winter, sunday_of(winter), hours)
        for winter, hours in product(winters.WINTERS, EVENT_HOURS)
    ]


def events_after_the_sunday():
    """Every start on all weekend days after that Sunday and on two weekdays, in every winter."""
    source = random.Random(SEED)
    cases = []
    for winter in winters.WINTERS:
        weekends = weekends_after(winter)
        weekdays = set(range(sunday_of(winter) + 1, len(winters.book_dates(winter)))) - {*weekends}
        for day in (*weekends, *source.sample(sorted(weekdays), 2)):
            cases += [
                known_case(source, winter, day, hours_from(source, start)) for start in STARTS
            ]
    return cases


def anything_at_the_hour():
    """An event on that Sunday and one on a weekend day after it, in a book of readings: whatever
    the hour that is not there holds, the line stays."""
    source = random.Random(SEED)
    cases = []
    for winter in winters.WINTERS:
        sunday = sunday_of(winter)
        for day in (sunday, source.choice(weekends_after(winter))):
            query = bare_query(winter, (), day, source.choice(EVENT_HOURS))
            query = with_book(source, query, SOUND_BOOKS)
            right = energies.line(query)
            cases += [
                Case(with_readings(query, {(sunday, NO_HOUR): number}), right)
                for number in ANYTHING
            ]
    return cases


def faults_beside_the_hour():
    """A fault at each of the first hours of that Sunday or of a reference day, for a morning event
    on that Sunday and for one on a weekend day after it. Whether it counts, the tables say."""
    source = random.Random(SEED)
    cases = []
    for winter, start, hour in product(winters.WINTERS, range(6, 10), HOURS_BESIDE):
        sunday = sunday_of(winter)
        for day in (sunday, source.choice(weekends_after(winter))):
            query = bare_query(winter, (), day, hours_from(source, start))
            query = with_book(source, query, SOUND_BOOKS)
            needed_days = (day, *known_references(winter, (), day, start))
            on = source.choice((sunday, source.choice(needed_days)))
            counts = on in needed_days and hour in warm_up_of(winter, day, start)
            number = source.choice((MISSING, MISSING, HIGHEST_READING + 1))
            fault = f"0,{FAULTS[number]},{place_of(on, hour)},0"
            line = fault if counts else energies.line(query)
            cases.append(Case(with_readings(query, {(on, hour): number}), line))
    return cases


EVENT_GROUPS = (
    ("events on the Sunday the clocks go forward", events_on_the_sunday),
    ("events after that Sunday", events_after_the_sunday),
    ("anything at hour 2 of that Sunday", anything_at_the_hour),
    ("faults beside hour 2 of that Sunday", faults_beside_the_hour),
)


# What that Sunday can be to an event, told by the tables.


class Sunday(NamedTuple):
    """What that Sunday is to an event: the event's own day, and then with this start; or a day
    before it, with so many nearer ones that might serve, and by a warm-up that names hour 2 or
    does not."""
    start: int = None
    nearer: int = None
    names_it: bool = False


def sunday_to(query):
    """What that Sunday is to a query's event."""
    sunday = sunday_of(query.winter)
    if query.day <= sunday:
        return Sunday(start=query.start if query.day == sunday else None)
    days = unmarked_before(query.winter, energies.marked_days(query.numbers), query.day)
    if sunday not in days:
        return Sunday()
    names_it = NO_HOUR in warm_up_of(query.winter, query.day, query.start)
    return Sunday(nearer=days.index(sunday), names_it=names_it)


SUNDAY_MUST_BE = (
    *((f"an event on it, start {start}", Sunday(start=start).__eq__) for start in STARTS),
    *((f"reference day {near + 1}", Sunday(nearer=near).__eq__) for near in range(REFERENCE_DAYS)),
    ("too far back by one day", Sunday(nearer=REFERENCE_DAYS).__eq__),
    *(
        (f"passed over, days nearer: {near}", Sunday(nearer=near, names_it=True).__eq__)
        for near in range(REFERENCE_DAYS + 1)
    ),
)
