"""The second program's medium-power settlement: section 11 of docs/RULES.md.

Powers are fractions of a kW, the effective power is their mean, and a rate is a fraction of a
dollar. Only what is written is turned into twelfths of a W and whole cents.
"""

import struct
from fractions import Fraction
from math import inf
from typing import NamedTuple

from second import energies, notices, settlements
from second.settlements import OUTPUT_BYTES, lent_numbers, one_number

PROFILE = 2

HIGHEST_REFERENCE = 10_000_000

# The numbers of the totals: the sum of the reductions, the settled events, the cents.
TOTALS_NUMBERS = 3

W_OF_A_KW = 1_000
TWELFTHS_OF_A_W = 12
CENTS_OF_A_DOLLAR = 100

# The dollars for a kW, by the highest power in kW that is paid so. Below the lowest power nothing
# is paid.
LOWEST_POWER = 15
RATES = (
    (199, Fraction("66.690")),
    (599, Fraction("61.560")),
    (1_199, Fraction("56.430")),
    (1_799, Fraction("51.300")),
    (inf, Fraction("46.170")),
)


class Line(NamedTuple):
    """The four numbers of a notice, in their order."""
    code: int
    place: int
    energy: int
    reduction: int


class Call(NamedTuple):
    """A medium-power settlement asked for. Book, numbers and references are None where bytes were
    lent that are no whole numbers. Each room is how many numbers that output has."""
    winter: int
    book: tuple
    numbers: tuple
    references: tuple
    room: int
    totals_room: int


class Event(NamedTuple):
    """What is said of an event: its code and place, and if it is settled, its spared energy in Wh
    and its power in kW."""
    code: int
    place: int
    energy: int = 0
    power: Fraction = Fraction(0)


class Settlement(NamedTuple):
    """The answer to a call, without events where it is refused."""
    number: int
    place: int
    events: tuple = ()


# The rules for the whole call, most of them the settlement's. Each test may count on the ones
# before it.


def short_output(call):
    """Some line has no room, or some total."""
    return settlements.short_output(call) or call.totals_room < TOTALS_NUMBERS


def wrong_references(call):
    """Not each notice has its one reference."""
    return call.references is None or 3 * len(call.references) != len(call.numbers)


# What comes first decides; references and notices are looked at behind these.
CALL_RULES = (
    (1, settlements.wrong_winter),
    (2, settlements.wrong_book),
    (4, settlements.wrong_list),
    (6, short_output),
    (40, wrong_references),
)


def refusal(call):
    """Number and place of what is wrong first, 0 and 0 if nothing is; and the notices, if the list
    is accepted."""
    for number, broken in CALL_RULES:
        if broken(call):
            return number, 0, ()
    for place, reference in enumerate(call.references):
        if reference > HIGHEST_REFERENCE:
            return 41, place, ()
    number, place, standing = notices.list_check(call.winter, PROFILE, call.numbers)
    return number, place, standing.notices if standing else ()


# Power and money.


def event_of(book, notice, reference):
    """An event, by its own hours alone."""
    hours = sorted(notices.day_hours(notice))
    readings = settlements.readings_in(book, hours)
    code, place = energies.first_fault(readings)
    if code:
        return Event(code, place)
    energy = max(reference * len(hours) - sum(readings.values()), 0)
    return Event(0, 0, energy, Fraction(energy, len(hours)) / W_OF_A_KW)


def effective_power(events):
    """The mean of the powers of all settled events, those with none among them."""
    powers = [event.power for event in events if event.code == 0]
    return energies.average(powers) if powers else Fraction(0)


def rate(power):
    """The dollars for each kW of an effective power."""
    if power < LOWEST_POWER:
        return Fraction(0)
    return next(dollars for highest, dollars in RATES if power <= highest)


def exact_credit(power):
    """What an effective power is worth in cents, exactly."""
    return power * rate(power) * CENTS_OF_A_DOLLAR


def twelfths(power):
    """A power as it is told, which never has a fraction of a twelfth of a W."""
    parts = power * W_OF_A_KW * TWELFTHS_OF_A_W
    assert parts.denominator == 1, power
    return parts.numerator


# The answer.


def settlement(call):
    """The answer to a call."""
    number, place, listed = refusal(call)
    pairs = zip(listed, call.references) if listed else ()
    return Settlement(number, place, tuple(event_of(call.book, *pair) for pair in pairs))


def lines_of(events):
    """The line of each event."""
    return [
        Line(event.code, event.place, event.energy, twelfths(event.power)) for event in events
    ]


def totals_of(events):
    """The three totals of all events."""
    return (
        twelfths(sum((event.power for event in events), Fraction(0))),
        sum(event.code == 0 for event in events),
        settlements.rounded(exact_credit(effective_power(events))),
    )


def power_call(winter, book, listed, references, output, totals):
    """The medium-power settlement from C: its answer to a book, a list and references of bytes, and
    the bytes of both lent outputs after the call. What is not written stays."""
    rooms = (len(output) // OUTPUT_BYTES, len(totals) // OUTPUT_BYTES)
    lent = map(lent_numbers, (book, listed, references))
    given = settlement(Call(winter, *lent, *rooms))
    answer = one_number(given.number, given.place)
    if given.number:
        return answer, output, totals
    lines = settlements.written(lines_of(given.events))
    sums = struct.pack("<3Q", *totals_of(given.events))
    return answer, lines + output[len(lines):], sums + totals[len(sums):]
