"""Calls for the settlement's tests, most of them built for an answer known beforehand.

A call is a query of calls.py, built for a number and a place, and for its lines if they are
known: where its book is a level one, they are. `source` is a seeded random.Random everywhere.
"""

from itertools import accumulate

from cases.calls import LINE_BYTES, LONGEST_PART, NOTICE_BYTES, Placing, Settle
from cases.checks import ACCEPTED, Case
from cases.event_books import FAULTS, LISTS, formula_energy, sums_for, unlimited
from cases.notice_lists import FARTHEST, WAYS, a_few, flat, many, one_notice, room, spoil
from cases.schedule_cases import WRONG_WINTERS
from cases.settlement_books import (
    book_length, book_of_sums, drawn_book, drawn_savings, even_book, first_fault, level_book,
    level_energies, lowered, needed_places, packed, warm_up_places,
)
from second import winters
from second.notices import MOST_NOTICES
from second.settlements import Line

LONGEST_LIST = MOST_NOTICES * NOTICE_BYTES

WRONG_PRICES = (0, 1_000_001, 1_000_002, 2**16 * 20, 2**31, 2**31 + 50_000, FARTHEST - 1, FARTHEST)
EDGE_PRICES = (1, 2, 9, 999, 50_000, 51_967, 65_536, 999_999, 1_000_000)


# Calls.


def drawn_placing(source):
    """Half of the parts lie at a guard page, the others a few bytes off."""
    return Placing(source.random() < 0.5, source.choice((0, source.randrange(16))))


def drawn_price(source):
    return source.choice((source.choice(EDGE_PRICES), source.randint(1, 1_000_000)))


def drawn_spare(source):
    """How many bytes an output has more than it needs."""
    return source.choice((0, 0, source.randrange(9), source.randrange(100)))


def settle(source, winter, book, price, listed, spare=None):
    """A settlement of these notices with the lent bytes of a book. The output has what it
    needs and some spare bytes."""
    if spare is None:
        spare = drawn_spare(source)
    length = LINE_BYTES * len(listed) + spare
    lent = packed(flat(listed))
    return Settle(winter, book, price, lent, length, source.randrange(256), drawn_placing(source))


def built_lines(lines, price):
    """What a call with lines of these codes, places and energies is built for. The sums are
    rounded in whole numbers: half of 36,000,000 is added and the rest cut off."""
    sums = accumulate(energy for _, _, energy in lines)
    up_to = [(2 * price * energy + 18_000_000) // 36_000_000 for energy in sums]
    before = [0, *up_to]
    cents = [one - other for one, other in zip(up_to, before)]
    return (*ACCEPTED, *(Line(*line, amount) for line, amount in zip(lines, cents)))


def level_case(source, winter, listed, price, savings=None, spare=None):
    """A call whose lines are known: the settlement of a level book."""
    savings = savings or drawn_savings(source, listed)
    lines = [(0, 0, energy) for energy in level_energies(winter, listed, savings)]
    book = packed(level_book(winter, listed, savings))
    query = settle(source, winter, book, price, listed, spare)
    return Case(query, built_lines(lines, price))


def drawn_list(source, winter):
    return source.choice(LISTS)(source, winter, 1)


def trial_case(source, winter, notice, relation, trial):
    """A call with one notice whose trial is this one, with A and B in that relation; None if
    there is no such."""
    h, w = room(notice), len(warm_up_places(winter, notice))
    sums = sums_for(source, h, w, relation, unlimited, trial)
    if not sums:
        return None
    price = drawn_price(source)
    book = packed(book_of_sums(source, winter, notice, sums))
    built_for = built_lines([(0, 0, formula_energy(h, w, sums))], price)
    return Case(settle(source, winter, book, price, [notice]), built_for)


def faulty_case(source, winter, listed, price, faulty):
    """A level book with these faults, by their places: the first one that a notice needs
    decides its line, and its energy is 0."""
    savings = drawn_savings(source, listed)
    book = level_book(winter, listed, savings)
    for place, number in faulty.items():
        book[place] = number
    found = [first_fault(winter, book, listed, notice) for notice in listed]
    amounts = level_energies(winter, listed, savings)
    lines = [
        (code, place, 0 if code else energy) for (code, place), energy in zip(found, amounts)
    ]
    query = settle(source, winter, packed(book), price, listed)
    return Case(query, built_lines(lines, price))


def even_case(source, winter, number, listed):
    """A book of one number: no energy, or the fault of each event's first needed reading."""
    code = FAULTS.get(number, 0)
    places = [needed_places(winter, listed, notice)[0] if code else 0 for notice in listed]
    book = packed(even_book(winter, number))
    price = drawn_price(source)
    built_for = built_lines([(code, place, 0) for place in places], price)
    return Case(settle(source, winter, book, price, listed), built_for)


# Calls that break several rules.


def wrong_books(winter):
    """Wrong lengths of a book in bytes; for a winter outside, any lengths."""
    right = 4 * book_length(winter) if winter in winters.WINTERS else 4 * 3624
    other = 4 * (3648 if right == 4 * 3624 else 3624)
    beside = [right + step for step in (*range(-9, 10), -96, 96, right // 3) if step]
    return sorted({*range(41), *beside, other, other + 1, right // 2, LONGEST_PART})


def wrong_lists(lent):
    """A list that is not whole triples, or too long."""
    return (
        lent[:-1], lent[:-4], lent[:-8], lent[:-11], lent + b"\0", lent + lent[:4],
        lent + lent[:8], (lent * 101)[:101 * NOTICE_BYTES], (lent * 101)[:LONGEST_LIST + 1],
    )


def wrong_call(source, winter, wrong):
    """A call that breaks these of the settlement's rules, and has a wrong notice too if the
    last flag says so. The first in the order decides."""
    wrong_winter, wrong_book, wrong_price, wrong_list, short_output, wrong_notice = wrong
    listed, fault = a_few(source, winter, 1), ACCEPTED
    if wrong_notice:
        made = [spoil(source, winter, 1, listed, way) for way in WAYS]
        listed, fault = source.choice([one for one in made if one])
    query = settle(source, winter, packed(drawn_book(source, winter)), drawn_price(source), listed)
    if wrong_list:
        query = query._replace(listed=source.choice(wrong_lists(query.listed)))
    if short_output:
        need = LINE_BYTES * len(listed)
        query = query._replace(length=source.choice((0, 1, need - 32, need - 8, need - 1)))
    if wrong_price:
        query = query._replace(price=source.choice(WRONG_PRICES))
    if wrong_book:
        length = source.choice(wrong_books(winter))
        query = query._replace(book=(query.book * 2)[:length])
    if wrong_winter:
        query = query._replace(winter=source.choice(WRONG_WINTERS))
    broken = [number for number, is_wrong in zip((1, 2, 3, 4, 6), wrong) if is_wrong]
    return Case(query, (broken[0], 0) if broken else fault)


# Plausible calls, and ways to make one thing in a call random.


def changed_cases(source, count, plausible, changes, how_many):
    """So many plausible calls as they are, or with one thing or several made random: how many of
    the changes, as drawn from these numbers."""
    cases = []
    for _ in range(count):
        query = plausible(source)
        for change in source.sample(changes, source.choice(how_many)):
            query = change(source, query)
        cases.append(Case(query))
    return cases


def plausible_call(source):
    winter = source.choice(winters.WINTERS)
    listed = source.choice((one_notice, a_few, many))(source, winter, 1)
    book = lowered(source, drawn_book(source, winter), listed)
    return settle(source, winter, packed(book), drawn_price(source), listed)


def any_winter(source, query):
    return query._replace(winter=source.randrange(2**32))


def any_readings(source, query):
    return query._replace(book=source.randbytes(len(query.book)))


def any_book(source, query):
    return query._replace(book=source.randbytes(source.randrange(LONGEST_PART)))


def any_price(source, query):
    return query._replace(price=source.randrange(2**32))


def any_notices(source, query):
    return query._replace(listed=source.randbytes(len(query.listed)))


def any_byte_of_the_list(source, query):
    lent = bytearray(query.listed)
    lent[source.randrange(len(lent))] = source.randrange(256)
    return query._replace(listed=bytes(lent))


def any_list(source, query):
    return query._replace(listed=source.randbytes(source.randint(1, 2 * LONGEST_LIST)))


def any_output(source, query):
    return query._replace(length=source.randrange(2 * query.length + 2))


ANYTHING = (
    any_winter, any_readings, any_book, any_price, any_notices, any_byte_of_the_list, any_list,
    any_output,
)
