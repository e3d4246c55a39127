"""Calls for the medium-power settlement's tests, nearly all built for an answer known beforehand.

A call is a query of calls.py, built for a number and a place, and for totals and lines where it
is accepted. These follow from its plans in whole numbers: a plan is a notice, its reference and
what the book has at its hours. `source` is a seeded random.Random everywhere.
"""

import random
from functools import cache
from typing import NamedTuple

from cases.calls import LINE_BYTES, TOTALS_BYTES, Power
from cases.checks import ACCEPTED, Case
from cases.event_books import FAULTS, FAULTY_BOOKS, SOUND_BOOKS, parts
from cases.notice_lists import (
    FARTHEST, WAYS, a_few, allowed_hours, flat, many, one_notice, open_days, room, spoil,
)
from cases.schedule_cases import WRONG_WINTERS
from cases.settlement_books import drawn_book, packed
from cases.settlement_calls import (
    any_book, any_byte_of_the_list, any_list, any_notices, any_output, any_readings, any_winter,
    drawn_placing, drawn_spare, wrong_books, wrong_lists,
)
from second import winters
from second.energies import HIGHEST_READING, place_of
from second.power import HIGHEST_REFERENCE, PROFILE, Line

# The bounds between rates in kW, and the rates in thousandths of a dollar. A power of 15 kW is
# past that bound, and one of any other bound is not past it.
BOUNDS = (15, 199, 599, 1_199, 1_799)
RATES = (0, 66_690, 61_560, 56_430, 51_300, 46_170)

# A kW in twelfths of a W, and the highest reduction.
KW = 12_000
HIGHEST_REDUCTION = 12 * HIGHEST_REFERENCE

HIGH_REFERENCES = (
    HIGHEST_REFERENCE + 1, HIGHEST_REFERENCE + 2, 2**24, 2**31, 2**31 + 5_000, FARTHEST - 1,
    FARTHEST,
)

# Lengths of totals without room for three numbers.
SHORT_TOTALS = (0, 1, 7, 8, 9, 15, 16, 17, 22, 23)

# The highest power of an event in a list of drawn plans, in W: each rate comes up.
SCALES = (20, 30_000, 400_000, 900_000, 2_500_000, HIGHEST_REFERENCE)

BACKGROUNDS = (*SOUND_BOOKS, *FAULTY_BOOKS)


class Plan(NamedTuple):
    """A notice, its reference, and what the book has at its hours."""
    notice: tuple
    reference: int
    drawn: tuple


# Plans.


def sparing(source, notice, energy):
    """A plan that spares so many Wh, with any reference that lets it."""
    hours = room(notice)
    least = -(-energy // hours)
    reference = source.choice((
        least, HIGHEST_REFERENCE, source.randint(least, min(2 * least + 9, HIGHEST_REFERENCE)),
    ))
    total = reference * hours - energy
    return Plan(notice, reference, tuple(parts(source, total, hours, HIGHEST_READING)))


def idle(source, notice):
    """A plan that spares nothing: it draws what is expected, or more."""
    hours = room(notice)
    reference = source.choice((0, source.randint(0, 50_000), source.randint(0, HIGHEST_REFERENCE)))
    least = reference * hours
    total = source.choice((
        least, min(least + 1, hours * HIGHEST_READING),
        source.randint(least, hours * HIGHEST_READING),
    ))
    return Plan(notice, reference, tuple(parts(source, total, hours, HIGHEST_READING)))


def with_faults(source, plan, hours, faults=tuple(FAULTS)):
    """The plan with faults at these of its hours, counted from 0."""
    drawn = list(plan.drawn)
    for hour in hours:
        drawn[hour] = source.choice(faults)
    return plan._replace(drawn=tuple(drawn))


def unsettled(source, notice):
    """A plan with faults at one hour or more."""
    plan = sparing(source, notice, source.randint(0, 100_000))
    hours = range(room(notice))
    return with_faults(source, plan, source.sample(hours, source.choice((1, 1, 2, len(hours)))))


def drawn_plans(source, listed):
    """Plans of any kind for these notices, most of them sparing."""
    highest = source.choice(SCALES)
    plans = []
    for notice in listed:
        kind = source.randrange(8)
        if kind == 0:
            plans.append(unsettled(source, notice))
        elif kind == 1:
            plans.append(idle(source, notice))
        else:
            plans.append(sparing(source, notice, source.randint(0, highest * room(notice))))
    return plans


# What a call of plans is built for.


def line_of(plan):
    """A plan's line, in whole numbers."""
    day, first, _ = plan.notice
    for hour, number in enumerate(plan.drawn, first):
        if number in FAULTS:
            return Line(FAULTS[number], place_of(day, hour), 0, 0)
    energy = max(plan.reference * room(plan.notice) - sum(plan.drawn), 0)
    return Line(0, 0, energy, 12 // room(plan.notice) * energy)


def rate_of(total, count):
    """The rate for so many twelfths of a W in so many settled events."""
    past = [total > bound * KW * count for bound in BOUNDS[1:]]
    return RATES[(total >= BOUNDS[0] * KW * count) + sum(past)]


def credit_of(total, count):
    """The cents, rounded in whole numbers: half of 240,000 n is added and the rest cut off."""
    if count == 0:
        return 0
    return (2 * total * rate_of(total, count) + 120_000 * count) // (240_000 * count)


def built_for(plans):
    """Number and place, totals and lines of an accepted call."""
    lines = [line_of(plan) for plan in plans]
    total = sum(line.reduction for line in lines)
    count = sum(line.code == 0 for line in lines)
    return (*ACCEPTED, total, count, credit_of(total, count), *lines)


# Calls.


@cache
def background(days, kind):
    """A book of so many days that is the same in every call."""
    winter = next(one for one in winters.WINTERS if len(winters.book_dates(one)) == days)
    return drawn_book(random.Random(kind), winter, BACKGROUNDS[kind:kind + 1])


def drawn_background(source, winter):
    """Readings or faults for the hours that no event needs."""
    return background(len(winters.book_dates(winter)), source.randrange(len(BACKGROUNDS)))


def planned_book(winter, plans, book):
    """The bytes of the book with what the plans have at their hours."""
    book = list(book)
    for (day, first, end), _, drawn in plans:
        book[place_of(day, first):place_of(day, end)] = drawn
    return packed(book)


def power_query(source, winter, book, listed, references):
    """A call with the lent bytes of a book. The outputs have what they need, and some spare
    bytes."""
    return Power(
        winter, book, packed(flat(listed)), packed(references),
        LINE_BYTES * len(listed) + drawn_spare(source), TOTALS_BYTES + drawn_spare(source),
        source.randrange(256), drawn_placing(source),
    )


def planned_case(source, winter, plans, book=None):
    """A call of these plans; where no book is given, any is behind them."""
    lent = planned_book(winter, plans, book or drawn_background(source, winter))
    listed = [plan.notice for plan in plans]
    references = [plan.reference for plan in plans]
    return Case(power_query(source, winter, lent, listed, references), built_for(plans))


def drawn_case(source, winter, listed):
    """A call of drawn plans for these notices."""
    return planned_case(source, winter, drawn_plans(source, listed))


def refused_call(source, winter, listed):
    """A call with these notices, whatever they are, and references and a book that are right."""
    references = [source.randint(0, HIGHEST_REFERENCE) for _ in listed]
    book = packed(drawn_background(source, winter))
    return power_query(source, winter, book, listed, references)


# Calls with a sum of reductions.


def notices_of(source, winter, lengths):
    """Notices of so many hours each, in this order, on a day each."""
    days = sorted(source.sample(open_days(winter, PROFILE), len(lengths)))
    hours = {n: [(s, e) for s, e in allowed_hours(PROFILE) if e - s == n] for n in (3, 4)}
    return [(day, *source.choice(hours[n])) for day, n in zip(days, lengths)]


def put_rest(amounts, steps, rest):
    """Puts a rest of twelfths of a W into an event of each length; False if they cannot take it.
    One Wh is four twelfths in an event of three hours, and three in one of four."""
    short, long = (steps.index(step) if step in steps else None for step in (4, 3))
    in_long = 0 if long is None else -rest % 4 if short is not None else rest // 3
    in_short = 0 if short is None else (rest - 3 * in_long) // 4
    if 3 * in_long + 4 * in_short != rest:
        return False
    for at, more in ((long, in_long), (short, in_short)):
        if at is not None:
            amounts[at] += more
    return all(0 <= amount * step <= HIGHEST_REDUCTION for amount, step in zip(amounts, steps))


def shifted(source, amounts, steps):
    """Moves whole W from one event to another, as often as there are events: the sum stays."""
    for _ in amounts:
        to, taken = source.randrange(len(amounts)), source.randrange(len(amounts))
        most = min(amounts[taken] * steps[taken], HIGHEST_REDUCTION - amounts[to] * steps[to]) // 12
        times = source.randint(0, most)
        amounts[taken] -= times * 12 // steps[taken]
        amounts[to] += times * 12 // steps[to]


def amounts_of(source, lengths, total):
    """Spared energies of events of so many hours each, whose reductions come to so many twelfths of
    a W; None if there are none such."""
    steps = [12 // length for length in lengths]
    amounts = [total // len(lengths) // step for step in steps]
    rest = total - sum(amount * step for amount, step in zip(amounts, steps))
    if not put_rest(amounts, steps, rest):
        return None
    shifted(source, amounts, steps)
    return amounts


def beside(source, lengths):
    """The lengths of some unsettled events for which the winter has hours, often none."""
    most = (100 - sum(lengths)) // 4
    count = source.choice((0, source.randint(0, 9)))
    return [source.choice((3, 4)) for _ in range(min(most, count))]


def sum_case(source, lengths, total):
    """A call whose settled events have these lengths and so many twelfths of a W together, with
    unsettled ones anywhere between them; None if there is no such."""
    amounts = amounts_of(source, lengths, total)
    if amounts is None:
        return None
    events = [*zip(lengths, amounts), *((length, None) for length in beside(source, lengths))]
    source.shuffle(events)
    winter = source.choice(winters.WINTERS)
    listed = notices_of(source, winter, [length for length, _ in events])
    plans = [
        unsettled(source, notice) if energy is None else sparing(source, notice, energy)
        for notice, (_, energy) in zip(listed, events)
    ]
    return planned_case(source, winter, plans)


def drawn_lengths(source, count):
    """Lengths of so many settled events: of three hours, of four where there are hours for them,
    and of both."""
    longest = min(count, 100 - 3 * count)
    yield [3] * count
    if longest == count:
        yield [4] * count
    if count > 1:
        long = source.randint(1, min(longest, count - 1))
        yield source.sample([4] * long + [3] * (count - long), count)


# Calls that break several rules.


def wrong_references(lent):
    """Bytes that are not the same number of references; `lent` has one at least."""
    return (
        b"", lent[:-1], lent[:-2], lent[:-3], lent[:-4], lent + b"\0", lent + b"\0\0",
        lent + b"\0\0\0", lent + lent[:4], lent * 2, lent[1:],
    )


def with_high(source, lent, high):
    """The references' bytes with ones that are too high at these indexes."""
    pieces = [lent[at:at + 4] for at in range(0, len(lent), 4)]
    for at in high:
        pieces[at] = packed([source.choice(HIGH_REFERENCES)])
    return b"".join(pieces)


def wrong_call(source, winter, wrong):
    """A call that breaks these of the rules, and has a wrong notice too if the last flag says so.
    The first in the order decides."""
    wrong_winter, wrong_book, wrong_list, short_output, short_totals, *others = wrong
    wrong_count, high_reference, wrong_notice = others
    listed, fault = a_few(source, winter, PROFILE), ACCEPTED
    if wrong_notice:
        made = [spoil(source, winter, PROFILE, listed, way) for way in WAYS]
        listed, fault = source.choice([one for one in made if one])
    query = refused_call(source, winter, listed)
    high = sorted(source.sample(range(len(listed)), source.randint(1, len(listed))))
    if high_reference:
        query = query._replace(references=with_high(source, query.references, high))
    if wrong_count:
        query = query._replace(references=source.choice(wrong_references(query.references)))
    if short_totals:
        query = query._replace(totals_length=source.choice(SHORT_TOTALS))
    if short_output:
        need = LINE_BYTES * len(listed)
        query = query._replace(length=source.choice((0, 1, need - 32, need - 8, need - 1)))
    if wrong_list:
        query = query._replace(listed=source.choice(wrong_lists(query.listed)))
    if wrong_book:
        length = source.choice(wrong_books(winter))
        query = query._replace(book=(query.book * 2)[:length])
    if wrong_winter:
        query = query._replace(winter=source.choice(WRONG_WINTERS))
    places = ((1, 0), (2, 0), (4, 0), (6, 0), (6, 0), (40, 0), (41, high[0]))
    broken = [refusal for refusal, is_wrong in zip(places, wrong) if is_wrong]
    return Case(query, broken[0] if broken else fault)


# Plausible calls, and ways to make one thing in a call random.


def plausible_call(source):
    """A call of drawn plans."""
    winter = source.choice(winters.WINTERS)
    shape = source.choice((one_notice, a_few, many))
    return drawn_case(source, winter, shape(source, winter, PROFILE)).query


def any_references(source, query):
    """As many of them, of random bytes."""
    return query._replace(references=source.randbytes(len(query.references)))


def any_reference_bytes(source, query):
    """Another number of bytes; they may be longer than the list."""
    length = source.randrange(2 * len(query.references) + 2)
    return query._replace(references=(query.references * 2 + b"\0")[:length])


def any_totals(source, query):
    """Totals of another length."""
    return query._replace(totals_length=source.randrange(2 * TOTALS_BYTES))


ANYTHING = (
    any_winter, any_readings, any_book, any_notices, any_byte_of_the_list, any_list, any_output,
    any_references, any_reference_bytes, any_totals,
)
