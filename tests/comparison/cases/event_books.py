"""Events, lists and books for the energy tests, most of them with an answer known beforehand.

Books are built from the sums R, B, A and C: readings are chosen that have these sums, and
the formula of section 6 gives the energy. The second program is asked only where
the needed readings are. `source` is a seeded random.Random everywhere.
"""

from itertools import combinations
from math import gcd
from typing import NamedTuple

from cases.checks import Case
from cases.notice_lists import (
    FARTHEST, a_few, allowed_hours, beside_excluded_days, empty_list, first_and_last_days, flat,
    hundred_notices, many, one_notice, two_events_a_day,
)
from second import energies, notices, winters
from second.energies import HIGHEST_READING, MISSING, Query, place_of
from second.notices import MOST_NOTICES

LIMIT = 720_000

# The most pairs of index and value that a query may have.
MOST_CHANGES = 64

EVENT_HOURS = allowed_hours(1)

# Every first hour and end of a day, whether or not an event may have them.
DAY_HOURS = list(combinations(range(25), 2))

# Lowest number and spread of a book. A step of the seed gives 32,768 numbers at most, so a
# wider spread changes nothing. Sound books have readings only, some up to the highest one;
# the others have faults or run over the end of 32 bits.
SOUND_BOOKS = (
    (0, 0), (0, 1), (0, 2), (0, 10), (7, 300), (500, 4_000), (0, 32_768), (10_000, 30_000),
    (0, FARTHEST), (250_000, 32_768), (9_967_233, 32_768), (HIGHEST_READING, 1),
)
FAULTY_BOOKS = (
    (HIGHEST_READING + 1, 1), (9_999_998, 4), (9_968_000, 32_768), (MISSING, 1), (MISSING, 2),
    (MISSING - 1, 1), (MISSING - 3, 3_000), (2**32 - 200, 32_768), (2**31, 32_768),
)

# Numbers that are no readings, and the code that each one asks for.
FAULTS = {
    MISSING: 21,
    HIGHEST_READING + 1: 22,
    MISSING - 1: 22,
    2**24: 22,
    2**31: 22,
    2**32 - HIGHEST_READING: 22,
}

# The highest readings of a book, from a few Wh to the highest of all.
SCALES = (30, 3_000, 30_000, 1_000_000, HIGHEST_READING)

TRIES = 100


# Events.


def period(winter):
    """The days of the winter period in their order."""
    return sorted(notices.day_kinds(winter).period)


def bare_query(winter, numbers, day, hours):
    """A query whose book has the right length and nothing but missing readings."""
    length = energies.HOURS * len(winters.book_dates(winter))
    return Query(winter, tuple(numbers), length, 0, MISSING, 1, (), day, *hours)


def with_book(source, query, books):
    """The query with a drawn book of one of these kinds."""
    low, spread = source.choice(books)
    return query._replace(seed=source.randrange(2**32), low=low, spread=spread)


def with_readings(query, readings):
    """The query with these readings, by (day, hour), put over its book."""
    pairs = tuple((place_of(*pair), reading) for pair, reading in readings.items())
    return query._replace(changes=query.changes + pairs)


def compared(source, query):
    """The query with a sound book, for comparison only. Mostly the event's readings are
    lowered, or half of the energies would be 0."""
    query = with_book(source, query, SOUND_BOOKS)
    if source.randrange(5) == 0:
        return Case(query)
    hours = [(query.day, hour) for hour in query.event().hours()]
    readings = energies.readings_at(query, hours)
    lowered = {pair: source.randint(0, reading) for pair, reading in readings.items()}
    return Case(with_readings(query, lowered))


def stepped_book(query):
    """A query's book made step by step, number after number."""
    state = query.seed
    book = []
    for _ in range(query.length):
        state = (state * 1103515245 + 12345) % 2**31
        book.append((query.low + (state // 65536) % max(query.spread, 1)) % 2**32)
    for index, value in query.changes:
        if index < query.length:
            book[index] = value
    return book


LISTS = (
    empty_list, one_notice, a_few, many, two_events_a_day, first_and_last_days,
    beside_excluded_days, hundred_notices,
)


def drawn_query(source, winter=None, day=None, hours=None):
    """A bare query for an event on any day of the period, with a valid list. November has
    no events then, so there are always five reference days."""
    winter = winter or source.choice(winters.WINTERS)
    numbers = flat(source.choice(LISTS)(source, winter, 1))
    day = day or source.choice(period(winter))
    return bare_query(winter, numbers, day, hours or source.choice(EVENT_HOURS))


def references(query):
    marked_days = energies.marked_days(query.numbers)
    return energies.reference_days(query.winter, marked_days, query.event())


def needed(query):
    """The hours of the needed readings as pairs (day, hour), in the order of rule 5.7."""
    return energies.needed_hours(query.winter, query.event(), references(query))


def lengths(query):
    """H and W."""
    event = query.event()
    return len(event.hours()), len(energies.warm_up_hours(query.winter, event))


# Sums, and the readings that have them.


class Sums(NamedTuple):
    """R, B, A and C: rules 6.3 and 6.4."""
    r: int
    b: int
    a: int
    c: int


def formula_energy(h, w, sums):
    """The spared energy by the formula of section 6, letter by letter."""
    r, b, a, c = sums
    stands = 3 * a - b
    trial = 6 * r + stands * 6 * h // w - 18 * c
    if trial > LIMIT:
        stands = min(stands, 2 * b)
    return max(6 * r + stands * 6 * h // w - 18 * c, 0)


def step(h, w):
    """The trials of events with H and W are the multiples of this: with R, B, A and C whole,
    6R and the adjustment have no smaller step in common."""
    return gcd(6, 6 * h // w)


def parts(source, total, count, most):
    """A total in so many parts, none above `most`."""
    if count == 1:
        return [total]
    part = source.randint(max(0, total - (count - 1) * most), min(most, total))
    return [part, *parts(source, total - part, count - 1, most)]


def five_readings(source, total):
    """Five readings in any order, and so on any days, that come to the total once one
    smallest and one largest are left out. The smallest or largest may be there twice."""
    middle = parts(source, total, 3, HIGHEST_READING)
    smallest = source.choice((0, min(middle), source.randint(0, min(middle))))
    largest = source.choice((max(middle), source.randint(max(middle), HIGHEST_READING)))
    return source.sample([smallest, *middle, largest], 5)


def readings_of(source, winter, event, days, sums):
    """Readings of the event day and these reference days that have these sums."""
    warm_up = energies.warm_up_hours(winter, event)
    readings = {}
    for hours, usual, own in ((warm_up, sums.b, sums.a), (event.hours(), sums.r, sums.c)):
        usual_parts = parts(source, usual, len(hours), 3 * HIGHEST_READING)
        own_parts = parts(source, own, len(hours), HIGHEST_READING)
        for hour, total, reading in zip(hours, usual_parts, own_parts):
            readings[event.day, hour] = reading
            readings |= zip(((day, hour) for day in days), five_readings(source, total))
    return readings


def settled(source, query, days, sums):
    """The query with readings of these sums, and the energy by the formula."""
    energy = formula_energy(*lengths(query), sums)
    readings = readings_of(source, query.winter, query.event(), days, sums)
    return Case(with_readings(query, readings), f"0,0,0,{energy}")


def drawn_sums(source, h, w):
    """Sums of readings of any magnitude, the event's own mostly low."""
    highest = round(10 ** source.uniform(1, 7))
    own = h * highest // source.choice((1, 4, 20))
    return Sums(
        r=source.randint(0, 3 * h * highest),
        b=source.randint(0, 3 * w * highest),
        a=source.randint(0, w * highest),
        c=source.randint(0, own),
    )


# How A and B may lie to each other: A - B/3 is what the event day's warm-up drew above the
# usual, and the limit is reached where A = B, since 3A - B = 2B there. Each gives A and B.


def below_usual(source, most):
    b = source.randint(1, 3 * most)
    return source.randint(0, (b - 1) // 3), b


def just_usual(source, most):
    a = source.randint(0, most)
    return a, 3 * a


def above_usual(source, most):
    b = source.randint(2, most)
    return source.randint(b // 3 + 1, b - 1), b


def at_limit(source, most):
    a = source.randint(0, most)
    return a, a


def above_limit(source, most):
    a = source.randint(1, most)
    return a, source.randint(0, a - 1)


def nothing_usual(source, most):
    return source.randint(1, most), 0


def far_above_limit(source, most):
    """So far that the limit takes away more than 40 kWh, whatever H and W."""
    b = source.randint(0, most)
    return b + 130_000 + source.randint(0, most), b


RELATIONS = (below_usual, just_usual, above_usual, at_limit, above_limit, nothing_usual)


def unlimited(a, b):
    return 3 * a - b


def limited(a, b):
    return 2 * b


def sums_for(source, h, w, relation, stands, target):
    """Sums with A and B in that relation and 6R + stands(A, B) times 6H/W - 18C equal to
    the target. None if no try gives any: with A = B only every second or third step can be
    reached."""
    for _ in range(TRIES):
        highest = source.choice(SCALES)
        a, b = relation(source, w * highest)
        left = target - stands(a, b) * 6 * h // w
        # 6R - 18C has to be what is left, and R is not negative.
        c = max(0, -(left // 18)) + source.randint(0, h * highest)
        r = left // 6 + 3 * c
        fits = a <= w * HIGHEST_READING and c <= h * HIGHEST_READING
        if left % 6 == 0 and fits and r <= 3 * h * HIGHEST_READING:
            return Sums(r, b, a, c)
    return None


# Lists that are taken as they are.


def marked(source, days):
    """A notice on each of these days, with any hours of the day."""
    return [(day, *source.choice(DAY_HOURS)) for day in days]


def unmarking(source, day):
    """A notice that marks nothing, though it names the day."""
    hour = source.randrange(25)
    return source.choice((
        (day, hour, hour),
        (day, source.randint(hour, 24), hour),
        (day, hour, 25),
        (day, hour, 32 + 24),
        (day, 24, 25),
        (day, hour, FARTHEST),
        (day, FARTHEST, hour),
        (day, 2**31, 2**31 + 4),
        (day + 152, 6, 10),
        (day + 2**8, 6, 10),
        (day + 2**16, 6, 10),
        (day + 2**31, 6, 10),
    ))


def leaving_free(source, winter, event, free):
    """A list that leaves so many serving days before an event free, some far back, and
    marks all the others; and the free days. None if the list would be too long."""
    serving = list(energies.serving_days(winter, (), event))
    if not free <= len(serving) <= MOST_NOTICES + free:
        return None
    left = source.sample(serving, free)
    listed = marked(source, [before for before in serving if before not in left])
    source.shuffle(listed)
    return listed, sorted(left, reverse=True)
