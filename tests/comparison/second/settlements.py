"""The second program's settlement: sections 7 and 9 of docs/RULES.md.

What a line is worth is a fraction of a cent, and a rounding is a whole number by the floor
of a fraction. At the boundary the lent slices are bytes and the answer is one number.
"""

import struct
from fractions import Fraction
from functools import lru_cache, partial
from math import floor
from typing import NamedTuple

from second import energies, notices, winters

# A price counts thousandths of a cent, and is that of a kWh.
PRICES = range(1, 1_000_001)
THOUSANDTHS_OF_A_CENT = 1_000
WH_OF_A_KWH = 1_000

# The output's numbers for a notice.
LINE_NUMBERS = 4

# Bytes of a number lent to a call, and of a number of the lent output: rule 9.2.
LENT_BYTES = 4
OUTPUT_BYTES = 8


class Line(NamedTuple):
    """The four numbers of a notice, in their order."""
    code: int
    place: int
    energy: int
    cents: int


class Call(NamedTuple):
    """A settlement asked for. Book and numbers are None where bytes were lent that are no whole
    numbers. The room is how many numbers the lent output has."""
    winter: int
    book: tuple
    price: int
    numbers: tuple
    room: int


class Settlement(NamedTuple):
    """The answer to a call, without lines and totals where it is refused."""
    number: int
    place: int
    lines: tuple = ()
    energy: int = 0
    cents: int = 0


# The rules for the whole call. Each test says whether the rule is broken, and may count on
# the ones before it.


def wrong_winter(call):
    """There is no such winter."""
    return call.winter not in winters.WINTERS


def wrong_book(call):
    """The book is no whole numbers, or not one number for each hour of the winter's days."""
    hours = energies.HOURS * len(winters.book_dates(call.winter))
    return call.book is None or len(call.book) != hours


def wrong_price(call):
    """There is no such price."""
    return call.price not in PRICES


def wrong_list(call):
    """The list check's rule for the length."""
    return notices.wrong_length(call.winter, 1, call.numbers)


def short_output(call):
    """Some line has no room."""
    return call.room < LINE_NUMBERS * (len(call.numbers) // 3)


# What comes first decides; the notices are looked at behind these.
CALL_RULES = (
    (1, wrong_winter),
    (2, wrong_book),
    (3, wrong_price),
    (4, wrong_list),
    (6, short_output),
)


# Money.


def worth(energy, price):
    """What an energy, in eighteenths of a Wh, is worth in cents, exactly: rule 7.2."""
    kwh = Fraction(energy, energies.EIGHTEENTHS) / WH_OF_A_KWH
    return kwh * Fraction(price, THOUSANDTHS_OF_A_CENT)


def rounded(cents):
    """Whole cents, the nearest; of two as near the higher."""
    return floor(cents + Fraction(1, 2))


def line_cents(amounts, price):
    """The cents of lines with these energies: by how much each makes the rounded worth of all
    so far grow."""
    cents = []
    energy = before = 0
    for amount in amounts:
        energy += amount
        up_to = rounded(worth(energy, price))
        cents.append(up_to - before)
        before = up_to
    return cents


# The settlement.


def readings_in(book, hours):
    """The readings of a lent book at these pairs (day, hour), by the pair."""
    return {pair: book[energies.place_of(*pair)] for pair in hours}


def event_answers(winter, book, listed):
    """What the energy's rules say of each notice of an accepted list."""
    with_events = energies.days_with_events(listed)
    for notice in listed:
        yield energies.event_answer(winter, notice, with_events, partial(readings_in, book))


def settled(winter, book, price, listed):
    """The settlement of an accepted list."""
    answers = list(event_answers(winter, book, listed))
    amounts = [energies.energy_of(answer) for answer in answers]
    cents = line_cents(amounts, price)
    lines = tuple(
        Line(answer.code, answer.place, *both) for answer, *both in zip(answers, amounts, cents)
    )
    return Settlement(0, 0, lines, sum(amounts), sum(cents))


def settlement(call):
    """The answer to a call."""
    for number, broken in CALL_RULES:
        if broken(call):
            return Settlement(number, 0)
    number, place, standing = notices.list_check(call.winter, 1, call.numbers)
    if number:
        return Settlement(number, place)
    return settled(call.winter, call.book, call.price, standing.notices)


# The boundary.


@lru_cache(maxsize=8)
def lent_numbers(lent):
    """The numbers of a lent book or list, None where some bytes make no whole number: whatever
    the others are, that is a wrong length."""
    if len(lent) % LENT_BYTES:
        return None
    return struct.unpack(f"<{len(lent) // LENT_BYTES}I", lent)


def written(lines):
    """The lines as bytes of the output."""
    return b"".join(struct.pack("<4Q", *line) for line in lines)


def one_number(number, place):
    """The one number that C gets."""
    return 65_536 * number + place


def check_call(winter, profile, listed):
    """The list check from C: its answer to a list of bytes."""
    number, place, _ = notices.list_check(winter, profile, lent_numbers(listed))
    return one_number(number, place)


def settle_call(winter, book, price, listed, output):
    """The settlement from C: its answer to a book and a list of bytes, and the bytes of the
    lent output after the call. Behind the last line all stays, whole numbers or not."""
    room = len(output) // OUTPUT_BYTES
    call = Call(winter, lent_numbers(book), price, lent_numbers(listed), room)
    given = settlement(call)
    lines = written(given.lines)
    return one_number(given.number, given.place), lines + output[len(lines):]
