"""Books for the settlement's tests, most of them with energies known beforehand.

A book is a list of numbers until it is lent. A notice is (day, s, e). The second program is
asked only where the needed readings are. `source` is a seeded random.Random everywhere.
"""

import struct
from typing import NamedTuple

from cases.event_books import FAULTS, SOUND_BOOKS, readings_of
from cases.notice_lists import open_days, room
from second import energies, winters
from second.energies import HIGHEST_READING, MISSING, place_of
from second.notices import Notice

# The reading of a level book: enough for every saving that the tests ask for.
LEVEL = 100_000

# The most that one event can spare: four hours at the highest reading, 6R, and a warm-up
# with 3A - B = 2B, so A = B, at the highest reading of the event day.
LARGEST_ENERGY = 6 * 12 * HIGHEST_READING + 2 * 3 * HIGHEST_READING * 6 * 4 // 3


class Saving(NamedTuple):
    """What makes up an event's energy in a level book: the Wh that its hours lie below the
    level, and the Wh that its warm-up hours lie above it."""
    below: int
    above: int = 0


def packed(numbers):
    """Numbers as the bytes lent to a call."""
    return struct.pack(f"<{len(numbers)}I", *numbers)


def book_length(winter):
    """How many numbers a winter's book has."""
    return energies.HOURS * len(winters.book_dates(winter))


def even_book(winter, number):
    """The same number for every hour."""
    return [number] * book_length(winter)


def drawn_book(source, winter, kinds=SOUND_BOOKS):
    """A book of one of these kinds, as its lowest number and its spread."""
    low, spread = source.choice(kinds)
    numbers = range(low, low + max(1, min(spread, 32_768)))
    return [number % 2**32 for number in source.choices(numbers, k=book_length(winter))]


def lowered(source, book, listed):
    """The book with the readings of the events' hours lowered, or half of the energies
    would be 0."""
    book = list(book)
    for day, s, e in listed:
        for hour in range(s, e):
            at = place_of(day, hour)
            book[at] = source.randint(0, book[at])
    return book


def drawn_savings(source, listed):
    """Savings of any magnitude, some of them 0, mostly with a fraction of a Wh."""
    most = source.choice((30, 1_000, LEVEL // 2))
    return [Saving(source.randint(0, most), source.randint(0, most)) for _ in listed]


def warm_up_places(winter, notice):
    day, *_ = notice
    return [place_of(day, hour) for hour in energies.warm_up_hours(winter, Notice(*notice))]


def level_book(winter, listed, savings):
    """Every reading is the level, except on the event days. The usual use is then the level
    too: R = 3HL, B = 3WL, A = WL + above and C = HL - below."""
    book = even_book(winter, LEVEL)
    for notice, saving in zip(listed, savings):
        day, s, _ = notice
        book[place_of(day, s)] -= saving.below
        book[warm_up_places(winter, notice)[0]] += saving.above
    return book


def level_energies(winter, listed, savings):
    """The energies of a level book: 6R - 18C is 18 times `below`, and (3A - B) times 6H/W
    is 18H/W times `above`. The limit takes nothing away, since 3A - B is never above 2B."""
    return [
        18 * below + 18 * room(notice) * above // len(warm_up_places(winter, notice))
        for notice, (below, above) in zip(listed, savings)
    ]


def full_mornings(source, winter):
    """25 mornings of four hours, so 100 hours."""
    return [(day, 6, 10) for day in sorted(source.sample(open_days(winter, 1), 25))]


def largest_book(winter, mornings):
    """The book in which each of these mornings of four hours spares the most. At hours 1, 2
    and 3 the usual readings come to the highest reading for each hour, so B = A. So they do at
    hours 0, 1 and 3, where the clocks go forward."""
    usual = {0: 3_333_333, 1: 3_333_334, 2: 3_333_333, 3: 3_333_333}
    own = dict.fromkeys(range(6, 10), 0)
    events = {day for day, _, _ in mornings}
    return [
        (own if day in events else usual).get(hour, HIGHEST_READING)
        for day in range(len(winters.book_dates(winter)))
        for hour in range(energies.HOURS)
    ]


def book_of_sums(source, winter, notice, sums):
    """The book for a list of this one notice in which R, B, A and C are these sums. No other
    reading is there."""
    event = Notice(*notice)
    references = energies.reference_days(winter, {event.day}, event)
    book = even_book(winter, MISSING)
    for pair, reading in readings_of(source, winter, event, references, sums).items():
        book[place_of(*pair)] = reading
    return book


def needed_places(winter, listed, notice):
    """Where the book has a notice's needed readings, in the order of rule 5.7."""
    event = Notice(*notice)
    with_events = {on for on, _, _ in listed}
    references = energies.reference_days(winter, with_events, event)
    return [place_of(*pair) for pair in energies.needed_hours(winter, event, references)]


def first_fault(winter, book, listed, notice):
    """Code and place of a notice's line by the first fault among its needed readings."""
    for place in needed_places(winter, listed, notice):
        if book[place] in FAULTS:
            return FAULTS[book[place]], place
    return 0, 0


def only_needed(source, winter, book, listed):
    """The book with faults at all readings that no notice needs."""
    needed = {at for notice in listed for at in needed_places(winter, listed, notice)}
    faults = list(FAULTS)
    return [
        number if at in needed else source.choice(faults) for at, number in enumerate(book)
    ]
