"""The second program's spared energy: sections 5 and 6 of docs/RULES.md, told by averages.

The needed readings are a dictionary by (day, hour), an hour's usual reading is the average
of the three in the middle of a sorted list, and energies are fractions of a Wh. Only what
is printed is turned into eighteenths. Where the specification leaves something open, a comment
names the entry of docs/DECISIONS.md that settles it.
"""

from collections import defaultdict
from fractions import Fraction
from functools import cache, lru_cache, partial
from itertools import islice
from typing import NamedTuple

from second import clocks, notices, winters
from second.notices import PROFILES, Notice

HOURS = winters.HOURS
LONGEST_WINTER = 152

HIGHEST_READING = 10_000_000
MISSING = 4294967295

REFERENCE_DAYS = 5
LIMIT_WH = 40_000
EIGHTEENTHS = 18

# How many elapsed hours before its start an event's warm-up hours begin, by the band that it
# is in.
MORNING, EVENING = PROFILES[1].bands
WARM_UP = {MORNING: (5, 4, 3), EVENING: (4, 3)}

LONGEST_BOOK = 3672


class Query(NamedTuple):
    """A call that settles one event, with the list and the book lent to it. The specification has no
    such call, and this one takes any list. The book has `length` numbers drawn from the seed,
    and the changes, pairs (index, value), over them."""
    winter: int
    numbers: tuple
    length: int
    seed: int
    low: int
    spread: int
    changes: tuple
    day: int
    start: int
    end: int

    def event(self):
        return Notice(self.day, self.start, self.end)


class Spared(NamedTuple):
    """How an event's spared energy came about. All are Wh, and the middle two are for one
    warm-up hour: what the event day drew above the usual, and the most of it that the limit
    leaves."""
    trial: Fraction
    excess: Fraction
    most: Fraction
    unfloored: Fraction

    def is_limited(self):
        return self.trial > LIMIT_WH

    def energy(self):
        """What was spared is never below 0."""
        return max(self.unfloored, Fraction(0))


class Answer(NamedTuple):
    """A refusal number, 0 if none; then the event code, its place and, if the event is
    settled, what it spared."""
    number: int
    code: int = 0
    place: int = 0
    spared: Spared = None


# The lent book.


def step_pairs(count):
    """After its first, second, .. step a book's state is factor times seed plus summand:
    these pairs, so that one number of a book can be told without those before it."""
    factor, summand = 1, 0
    for _ in range(count):
        factor = factor * 1103515245 % 2**31
        summand = (summand * 1103515245 + 12345) % 2**31
        yield factor, summand


STEPS = tuple(step_pairs(LONGEST_BOOK))


def drawn(query, index):
    """The book's number at an index before the changes."""
    factor, summand = STEPS[index]
    state = (factor * query.seed + summand) % 2**31
    return (query.low + state // 65536 % max(query.spread, 1)) % 2**32


def place_of(day, hour):
    """The place of an hour, which is also where the book has its reading: a book goes from day
    to day, and a day from hour to hour."""
    return HOURS * day + hour


def readings_at(query, hours):
    """The book's readings at these pairs (day, hour), by the pair. Of two changes at one
    index the later one stands."""
    changed = dict(query.changes)
    places = {pair: place_of(*pair) for pair in hours}
    return {pair: changed.get(at, drawn(query, at)) for pair, at in places.items()}


# The hours of an event and its reference days.


def days_with_events(listed):
    """The days on which an accepted list has an event, whatever its hours."""
    return frozenset(notice.day for notice in listed)


@lru_cache(maxsize=1)
def marked_hours(numbers):
    """The hours that any list marks, as a set for each day. Of lists that are not accepted
    the specification says nothing. That a notice marks nothing where it names no hours of a day that
    a book can have, and that numbers over from whole triples are passed over, is a choice of
    ours: "Lists that were not accepted"."""
    hours = defaultdict(set)
    for triple in zip(numbers[0::3], numbers[1::3], numbers[2::3]):
        notice = Notice(*triple)
        if notice.day < LONGEST_WINTER and notice.end <= HOURS:
            hours[notice.day] |= set(notice.hours())
    return hours


@lru_cache(maxsize=1)
def marked_days(numbers):
    """The days on which any list marks an hour. That such a day carries an event is a choice
    of ours: "Any masks"."""
    return frozenset(day for day, hours in marked_hours(numbers).items() if hours)


def warm_up_hours(winter, event):
    """The warm-up hours by the clock, counted back over the hours that the event's day has."""
    on = winters.book_dates(winter)[event.day]
    elapsed = WARM_UP[notices.band_of(PROFILES[1], event)]
    return tuple(clocks.earlier(on, event.first, before) for before in elapsed)


@cache
def days_of_kind(winter, day):
    """All days before the event day, the nearest first, that are of a weekend as it is, or are
    not as it is not, and are not excluded."""
    kinds = notices.day_kinds(winter)
    return [
        before
        for before in reversed(range(day))
        if (before in kinds.weekend) == (day in kinds.weekend) and before not in kinds.excluded
    ]


def serving_days(winter, with_events, event):
    """Those of them that serve the event: no event is on them, and each of its warm-up hours is
    one of their own, which it may not be where the clocks are changed."""
    warm_up = warm_up_hours(winter, event)
    dates = winters.book_dates(winter)
    for before in days_of_kind(winter, event.day):
        if before not in with_events and clocks.has_hours(dates[before], warm_up):
            yield before


def reference_days(winter, with_events, event):
    """The nearest of them, as many as are asked for, or all if there are fewer."""
    return list(islice(serving_days(winter, with_events, event), REFERENCE_DAYS))


def needed_hours(winter, event, references):
    """The hours of the needed readings, as pairs (day, hour) in their order: on the event day
    the warm-up before the event, each from its first hour on, and so on each reference day,
    back from the nearest. A reference day is read at the hours that the clock showed on the
    event's."""
    hours = sorted(warm_up_hours(winter, event)) + sorted(event.hours())
    return [(day, hour) for day in (event.day, *references) for hour in hours]


# From readings to spared energy.


def average(values):
    values = list(values)
    return Fraction(sum(values)) / len(values)


def usual(readings, references, hour):
    """An hour's usual reading, a third of T: of the reference readings one at each end is left
    out, and the average of the others taken."""
    _, *middle, _ = sorted(readings[day, hour] for day in references)
    return average(middle)


def spared_energy(event, warm_up, references, readings):
    """What the event spared: the usual readings of its hours, adjusted by as much as each
    warm-up hour was above the usual on average, less its own readings."""
    usual_event = sum(usual(readings, references, hour) for hour in event.hours())
    own_event = sum(readings[event.day, hour] for hour in event.hours())
    usual_warm_up = average(usual(readings, references, hour) for hour in warm_up)
    own_warm_up = average(readings[event.day, hour] for hour in warm_up)

    def adjusted(by):
        return usual_event + by * len(event.hours()) - own_event

    excess = own_warm_up - usual_warm_up
    most = 2 * usual_warm_up
    trial = adjusted(excess)
    # The trial is always by the whole excess, and decides whether less of it stands. 3A - B is
    # 3W times the excess, and 2B is 3W times the most.
    unfloored = adjusted(min(excess, most)) if trial > LIMIT_WH else trial
    return Spared(trial, excess, most, unfloored)


def eighteenths(energy):
    """An energy as it is told, which never has a fraction of an eighteenth."""
    parts = energy * EIGHTEENTHS
    assert parts.denominator == 1, energy
    return parts.numerator


# The answer.


def refusal(query):
    """The number of the first rule that the call breaks, 0 if it breaks none. Which rules it
    has, and in which order, is a choice of ours: "One event, refused"."""
    if query.winter not in winters.WINTERS:
        return 1
    if query.length != HOURS * len(winters.book_dates(query.winter)):
        return 2
    if query.day not in notices.day_kinds(query.winter).period:
        return 10
    standing = notices.Standing(query.winter, PROFILES[1])
    wrong = (number for number, broken in notices.HOUR_RULES if broken(standing, query.event()))
    return next(wrong, 0)


def fault(reading):
    """The code that a needed reading asks for, 0 if it is a reading."""
    if reading == MISSING:
        return 21
    return 22 if reading > HIGHEST_READING else 0


def first_fault(readings):
    """Code and place by the first of these readings that is at fault, 0 and 0 if none is. They
    stand by (day, hour), in the order in which they are needed."""
    faults = ((fault(reading), place_of(*pair)) for pair, reading in readings.items())
    return next((found for found in faults if found[0]), (0, 0))


def event_answer(winter, event, with_events, readings_of):
    """The answer to an event; `readings_of` gives the readings at pairs (day, hour), which are
    looked at only where there are enough reference days. The first fault among them decides."""
    references = reference_days(winter, with_events, event)
    if len(references) < REFERENCE_DAYS:
        return Answer(0, code=20)
    readings = readings_of(needed_hours(winter, event, references))
    code, place = first_fault(readings)
    if code:
        return Answer(0, code, place)
    warm_up = warm_up_hours(winter, event)
    return Answer(0, spared=spared_energy(event, warm_up, references, readings))


def answer(query):
    """The answer to a query."""
    number = refusal(query)
    if number:
        return Answer(number)
    with_events = marked_days(query.numbers)
    return event_answer(query.winter, query.event(), with_events, partial(readings_at, query))


def energy_of(given):
    """The energy of an event's line, 0 if it is unsettled."""
    return eighteenths(given.spared.energy()) if given.spared else 0


def printed(given):
    """An answer as it is printed."""
    if given.number:
        return str(given.number)
    return winters.joined((0, given.code, given.place, energy_of(given)))


def line(query):
    """The whole answer to one query."""
    return printed(answer(query))
