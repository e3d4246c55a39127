"""Texts for the statement's tests, most of them with an answer known beforehand.

A text is put together from its parts: winter, price, list and read lines. Its readings are
those of a book, and hours whose reading is missing are not listed. A notice is (day, s, e).
`source` is a seeded random.Random everywhere.
"""

from itertools import groupby, pairwise, product
from typing import NamedTuple

from cases.checks import Case
from cases.notice_lists import hundred_notices, notices_in
from cases.settlement_books import book_length, needed_places
from second import settlements, winters
from second.energies import HOURS, MISSING, place_of
from second.statements import LARGEST_NUMBER, LONGEST_TEXT
from second.winters import LONGEST_BOOK

# Lines before the first event line: winter, price, number of events.
LINES_BEFORE_EVENTS = 3

# No event needs the last hour of a day: bands and warm-up hours are all before it.
LAST_HOUR = HOURS - 1

MOST_DIGITS = len(str(LARGEST_NUMBER))

SAMPLE = b"""\
winter=2026
price=51967
events=1
event=38,6,9
reads=12
read=31,1,2000,2000,2000
read=31,6,2000,2000,2000
read=32,1,2100,2100,2100
read=32,6,2100,2100,2100
read=33,1,2200,2200,2200
read=33,6,2200,2200,2200
read=36,1,2300,2300,2300
read=36,6,2300,2300,2300
read=37,1,2400,2400,2400
read=37,6,2400,2400,2400
read=38,1,2500,2500,2500
read=38,6,1000,1000,1000
"""
SAMPLE_STATEMENT = b"""\
winter=2026
price=51967
events=1
line=38,6,9,0,0,81000,234
energy=81000
total=234
"""

# One line of every kind; and no event and no reading at all.
SMALL = b"winter=2026\nprice=1\nevents=1\nevent=38,6,7\nreads=1\nread=31,1,5\n"
SMALLEST = b"winter=2026\nprice=1\nevents=0\nreads=0\n"


class Read(NamedTuple):
    """A read line."""
    day: int
    hour: int
    values: tuple


class Parts(NamedTuple):
    """What a text is put together from."""
    winter: int
    price: int
    listed: list
    reads: list

    def text(self):
        """The text in its form, line by line."""
        lines = [
            f"winter={self.winter}",
            f"price={self.price}",
            f"events={len(self.listed)}",
            *(f"event={day},{s},{e}" for day, s, e in self.listed),
            f"reads={len(self.reads)}",
            *(f"read={winters.joined((day, hour, *values))}" for day, hour, values in self.reads),
        ]
        return "".join(f"{line}\n" for line in lines).encode("ascii")

    def read_line(self, index):
        """The number of a read line in the text."""
        return LINES_BEFORE_EVENTS + len(self.listed) + 1 + index + 1


# Read lines.


def day_reads(day, readings):
    """A day's readings as read lines, one for each run of hours that are there."""
    hours = groupby(enumerate(readings), key=lambda pair: pair[1] != MISSING)
    for listed, run in hours:
        if listed:
            (first, *_), values = zip(*run)
            yield Read(day, first, values)


def book_reads(book):
    """A book's readings as read lines, as few as possible."""
    days = range(len(book) // HOURS)
    return [
        read for day in days for read in day_reads(day, book[HOURS * day:HOURS * (day + 1)])
    ]


def cut_at(reads, places):
    """The read lines, cut in two at those of these places that lie inside one."""
    pieces = []
    for day, hour, values in reads:
        inside = [at for at in range(1, len(values)) if place_of(day, hour + at) in places]
        for start, end in pairwise((0, *inside, len(values))):
            pieces.append(Read(day, hour + start, values[start:end]))
    return pieces


def drawn_cuts(source, reads):
    """The read lines as they are, cut here and there, or cut at every hour."""
    share = source.choice((0, 0, 0.1, 0.5, 1))
    places = {place for place in range(LONGEST_BOOK) if source.random() < share}
    return cut_at(reads, places)


# Texts of settlements.


def needed_only(winter, book, listed):
    """The book with no readings but those that some notice needs."""
    needed = {at for notice in listed for at in needed_places(winter, listed, notice)}
    return [number if at in needed else MISSING for at, number in enumerate(book)]


def drawn_parts(source, winter, price, listed, book):
    """Parts with a book's readings in some read lines; these are whole if the text would be
    too long."""
    whole = Parts(winter, price, listed, book_reads(book))
    cut = whole._replace(reads=drawn_cuts(source, whole.reads))
    return cut if len(cut.text()) <= LONGEST_TEXT else whole


def lent_notices(lent):
    """The notices of a lent list of whole triples."""
    return notices_in(settlements.lent_numbers(lent))


def text_of_call(source, case):
    """The text that asks for the same as a call from C, built for the same answer. A number
    that no text can hold breaks the form of its line instead."""
    call = case.query
    listed = lent_notices(call.listed)
    book = settlements.lent_numbers(call.book)
    text = drawn_parts(source, call.winter, call.price, listed, book).text()
    lines = ((call.winter,), (call.price,), (len(listed),), *listed)
    for place, numbers in enumerate(lines, start=1):
        if max(numbers) > LARGEST_NUMBER:
            return Case(text, (30, place))
    return Case(text, case.built_for)


# Texts of a given size.


def long_readings(source, winter):
    """A book of readings with seven digits each, and 0 for the last hour of every day."""
    book = [source.randint(1_000_000, 9_999_999) for _ in range(book_length(winter))]
    for day in range(len(winters.book_dates(winter))):
        book[place_of(day, LAST_HOUR)] = 0
    return book


def most_cuts(parts, places, size):
    """The parts with read lines cut at as many of these places, in their order, as leave
    the text no longer than the size."""
    low, high = 0, len(places)
    while low < high:
        middle = (low + high + 1) // 2
        if len(parts._replace(reads=cut_at(parts.reads, set(places[:middle]))).text()) <= size:
            low = middle
        else:
            high = middle - 1
    return parts._replace(reads=cut_at(parts.reads, set(places[:low])))


def lengthened(parts, more):
    """The parts with values of last hours, all of one digit, made so many digits longer."""
    reads = list(parts.reads)
    for index, (day, hour, values) in enumerate(reads):
        if hour + len(values) == HOURS and more:
            digits = min(MOST_DIGITS - 1, more)
            reads[index] = Read(day, hour, (*values[:-1], 10**digits))
            more -= digits
    assert more == 0
    return parts._replace(reads=reads)


def parts_of_size(source, winter, size):
    """Parts of a right text of just this size: 100 notices and a full book, its read lines
    cut until the text is nearly as long, and then some values that no event needs made
    longer."""
    book = long_readings(source, winter)
    whole = Parts(winter, 50_000, hundred_notices(source, winter, 1), book_reads(book))
    places = source.sample(range(len(book)), len(book))
    cut = most_cuts(whole, places, size)
    parts = lengthened(cut, size - len(cut.text()))
    assert len(parts.text()) == size
    return parts


def most_lines(source, winter):
    """As many read lines as a winter has hours, 100 notices, and readings of one digit, or
    the text would be too long."""
    hours = product(range(len(winters.book_dates(winter))), range(HOURS))
    reads = [Read(day, hour, (source.randrange(10),)) for day, hour in hours]
    return Parts(winter, 999_999, hundred_notices(source, winter, 1), reads)


def most_events():
    """As many event lines as a text has room for, far more than a list may have."""
    line_bytes = len("event=38,6,9\n")
    count = (LONGEST_TEXT - len(SMALLEST) - MOST_DIGITS) // line_bytes
    return Parts(2026, 1, [(38, 6, 9)] * count, [])
