"""The groups of calls from C that the medium-power settlement is compared on.

Nearly all calls are built for a number and a place, and if they are accepted, for their totals and
all their lines. Everything is drawn from one seed, so the calls are the same in every run.
"""

import random
from itertools import product
from math import gcd

from cases.calls import LINE_BYTES, LONGEST_PART, NOTICE_BYTES, TOTALS_BYTES
from cases.checks import ACCEPTED, Case
from cases.event_books import FAULTS
from cases.notice_lists import (
    WAYS, a_few, beside_excluded_days, empty_list, first_and_last_days, hundred_hours,
    list_of_count, many, one_notice, open_slots, room, spoil, two_events_a_day,
)
from cases.power_calls import (
    ANYTHING, BOUNDS, HIGH_REFERENCES, KW, RATES, Plan, drawn_background, drawn_case,
    drawn_lengths, drawn_plans, idle, notices_of, planned_case, plausible_call, refused_call,
    sparing, sum_case, unsettled, with_faults, with_high, wrong_call,
)
from cases.settlement_books import even_book, packed
from cases.settlement_calls import LONGEST_LIST, changed_cases, drawn_placing, wrong_books
from cases.settlement_cases import LIST_LENGTHS
from second import winters
from second.energies import HIGHEST_READING
from second.power import HIGHEST_REFERENCE, PROFILE

SEED = 2026
RANDOM_CALLS = 800

SHAPES = (
    empty_list, one_notice, a_few, two_events_a_day, first_and_last_days, beside_excluded_days,
)

# How many events are settled where the mean is to lie at a bound or the credit at a half.
COUNTS = (1, 2, 3, 25, 33)

# The most notices of a list that is accepted: those of three hours, and those of four.
MOST_SHORT, MOST_LONG = 33, 25


def every_winter():
    """Small lists of several shapes in every winter, with plans of every kind."""
    source = random.Random(SEED)
    return [
        drawn_case(source, winter, shape(source, winter, PROFILE))
        for winter, shape in product(winters.WINTERS, SHAPES)
    ]


def full_lists():
    """The longest lists in every winter: 33 events of three hours, 25 of four, and 100 hours in
    events of both lengths."""
    source = random.Random(SEED)
    cases = []
    for winter in winters.WINTERS:
        cases += [
            drawn_case(source, winter, notices_of(source, winter, [3] * MOST_SHORT)),
            drawn_case(source, winter, notices_of(source, winter, [4] * MOST_LONG)),
            drawn_case(source, winter, hundred_hours(source, winter, PROFILE)),
        ]
    return cases


# Refusals.


def too_many_hours():
    """One notice more than the longest lists have, and lists of 100 and 101 notices."""
    source = random.Random(SEED)
    cases = []
    for winter in winters.WINTERS[::8]:
        slots = sorted(source.sample(open_slots(winter, PROFILE), 101))
        short = [(day, first, first + 3) for day, first, _ in slots]
        cases += [
            Case(refused_call(source, winter, listed), fault)
            for listed, fault in (
                (notices_of(source, winter, [3] * 34), (18, 33)),
                (notices_of(source, winter, [4] * 25 + [3]), (18, 25)),
                (notices_of(source, winter, [3] * 32 + [4, 3]), (18, 33)),
                (short[:100], (18, 33)),
                (short, (4, 0)),
            )
        ]
    return cases


def spoilt_lists():
    """Lists spoilt once, in every way possible under profile 2."""
    source = random.Random(SEED)
    cases = []
    for winter in winters.WINTERS:
        for way in source.sample(WAYS, 8):
            shape = source.choice((a_few, many, hundred_hours))
            made = spoil(source, winter, PROFILE, shape(source, winter, PROFILE), way)
            if made:
                listed, fault = made
                cases.append(Case(refused_call(source, winter, listed), fault))
    return cases


def faults_at_every_place():
    """A list of 33 notices, at every place spoilt once for each number."""
    source = random.Random(SEED)
    listed = list_of_count(source, 2027, PROFILE, MOST_SHORT, 100)
    cases = []
    for place in range(len(listed) + 1):
        by_number = {}
        for way in source.sample(WAYS, len(WAYS)):
            made = way(source, 2027, PROFILE, listed, place)
            if made:
                spoilt, fault = made
                by_number[fault[0]] = Case(refused_call(source, 2027, spoilt), fault)
        cases += by_number.values()
    return cases


def wrong_calls():
    """Winter, book, list, output, totals, references and notices, wrong alone and together."""
    source = random.Random(SEED)
    return [
        wrong_call(source, winter, wrong)
        for winter, wrong in product(
            (2010, 2026, 2027, 2098), product((False, True), repeat=8),
        )
    ]


def high_references():
    """A reference of each value that is too high, at each index of lists of several lengths; some
    lists would be refused for a notice."""
    source = random.Random(SEED)
    slots = sorted(source.sample(open_slots(2026, PROFILE), 100))
    cases = []
    for count in (1, 2, MOST_LONG, MOST_SHORT, 100):
        listed = [(day, first, first + 3) for day, first, _ in slots[:count]]
        right = refused_call(source, 2026, listed)
        for place, reference in product(range(count), HIGH_REFERENCES):
            lent = right.references
            spoilt = lent[:4 * place] + packed([reference]) + lent[4 * place + 4:]
            cases.append(Case(right._replace(references=spoilt), (41, place)))
    return cases


def several_high_references():
    """Two references or more that are too high, and a wrong notice anywhere: the first of these
    references decides."""
    source = random.Random(SEED)
    listed = list_of_count(source, 2026, PROFILE, MOST_SHORT, 100)
    cases = []
    for first, notice in product(range(0, MOST_SHORT - 1, 3), range(0, MOST_SHORT, 4)):
        ways = source.sample(WAYS, len(WAYS))
        made = filter(None, (way(source, 2026, PROFILE, listed, notice) for way in ways))
        spoilt, _ = next(made)
        query = refused_call(source, 2026, spoilt)
        behind = range(first + 1, len(spoilt))
        high = [first, *source.sample(behind, source.randint(1, len(behind)))]
        lent = with_high(source, query.references, high)
        cases.append(Case(query._replace(references=lent), (41, first)))
    return cases


# Lengths.


def book_lengths():
    """The right book of winters of both lengths, beside those of wrong lengths in bytes."""
    source = random.Random(SEED)
    cases = []
    for winter in (2026, 2027):
        right = drawn_case(source, winter, a_few(source, winter, PROFILE))
        wrong = [(right.query.book * 2)[:length] for length in wrong_books(winter)]
        cases += [right, *(Case(right.query._replace(book=book), (2, 0)) for book in wrong)]
    return cases


def built_for_length(length):
    """What the first bytes of a list of 33 notices get, where zeros are behind them."""
    if length % NOTICE_BYTES or length > LONGEST_LIST:
        return 4, 0
    return ACCEPTED if length <= MOST_SHORT * NOTICE_BYTES else (10, MOST_SHORT)


def list_lengths():
    """The first bytes of a list of 33 notices, with as many references as it has whole notices,
    and outputs that would do for them all."""
    source = random.Random(SEED)
    plans = drawn_plans(source, notices_of(source, 2026, [3] * MOST_SHORT))
    query = planned_case(source, 2026, plans).query._replace(length=LINE_BYTES * 100)
    listed, references = (lent + bytes(4 * LONGEST_LIST) for lent in query[2:4])
    around = range(MOST_SHORT * NOTICE_BYTES - 13, MOST_SHORT * NOTICE_BYTES + 26)
    return [
        Case(
            query._replace(listed=listed[:length], references=references[:length // 12 * 4]),
            built_for_length(length),
        )
        for length in sorted({*LIST_LENGTHS, *around})
    ]


def short_cases(source):
    """Calls with lists of several lengths, whose lengths are then changed."""
    for count in (0, 1, 2, 3, MOST_LONG, MOST_SHORT):
        yield count, drawn_case(source, 2027, notices_of(source, 2027, [3] * count))


def reference_lengths():
    """References of many lengths in bytes: one for each notice, or 40."""
    source = random.Random(SEED)
    cases = []
    for count, right in short_cases(source):
        need = 4 * count
        lent = right.query.references + source.randbytes(LONGEST_PART)
        around = range(max(0, need - 9), need + 10)
        for length in sorted({*range(25), *around, 2 * need + 4, 12 * count + 12, LONGEST_PART}):
            query = right.query._replace(references=lent[:length])
            cases.append(Case(query, right.built_for if length == need else (40, 0)))
    return cases


def output_lengths():
    """Outputs and totals of 0 to 40 bytes, and a little shorter and longer than needed. The same is
    written in each that is long enough, and what is over stays as it was."""
    source = random.Random(SEED)
    cases = []
    for count, right in short_cases(source):
        need = LINE_BYTES * count
        around = range(max(0, need - 9), need + 10)
        lengths = [(one, TOTALS_BYTES) for one in {*range(41), *around, need + 31, need + 700}]
        lengths += [(need, one) for one in (*range(50), 1_000)]
        lengths += product((need, need + 1, max(0, need - 1)), (TOTALS_BYTES, 23, 25, 16))
        for length, totals_length in sorted(lengths):
            query = right.query._replace(
                length=length, totals_length=totals_length, fill=source.randrange(256),
                placing=drawn_placing(source),
            )
            enough = length >= need and totals_length >= TOTALS_BYTES
            cases.append(Case(query, right.built_for if enough else (6, 0)))
    return cases


# Codes and places.


def each_needed_fault():
    """A fault of each value at each event hour of a list in turn."""
    source = random.Random(SEED)
    listed = [(36, 16, 20), (38, 6, 9), (38, 17, 20), (57, 16, 19)]
    plans = [sparing(source, notice, 90_000 + room(notice)) for notice in listed]
    return [
        planned_case(
            source, 2027,
            [*plans[:at], with_faults(source, plans[at], [hour], [fault]), *plans[at + 1:]],
        )
        for at, notice in enumerate(listed)
        for hour in range(room(notice))
        for fault in FAULTS
    ]


def pairs_of_faults():
    """Faults of both codes at two hours or more of an event: the first decides."""
    source = random.Random(SEED)
    cases = []
    for hours, codes in product(((16, 20), (6, 9), (17, 20)), product((None, *FAULTS), repeat=3)):
        plan = sparing(source, (38, *hours), 60_000)
        places = source.sample(range(room(plan.notice)), 3)
        for place, fault in zip(places, codes):
            plan = with_faults(source, plan, [place], [fault]) if fault else plan
        cases.append(planned_case(source, 2027, [plan]))
    return cases


def unneeded_faults():
    """Faults at all readings that no event needs: none of them counts."""
    source = random.Random(SEED)
    cases = []
    for winter in winters.WINTERS:
        listed = source.choice((one_notice, a_few, many))(source, winter, PROFILE)
        plans = [sparing(source, notice, source.randint(0, 900_000)) for notice in listed]
        book = source.choices(list(FAULTS), k=len(even_book(winter, 0)))
        cases.append(planned_case(source, winter, plans, book))
    return cases


def unneeded_numbers():
    """The same plans in books of any numbers: all that no event needs may change."""
    source = random.Random(SEED)
    plans = drawn_plans(source, list_of_count(source, 2026, PROFILE, 12, 42))
    return [
        planned_case(source, 2026, plans, drawn_background(source, 2026)) for _ in range(60)
    ]


def even_books():
    """Books of one number: nothing drawn, 1 Wh, the highest reading, and every fault."""
    source = random.Random(SEED)
    cases = []
    for winter, number in product(winters.WINTERS[::6], (0, 1, HIGHEST_READING, *FAULTS)):
        listed = source.choice((one_notice, a_few, many))(source, winter, PROFILE)
        plans = [
            Plan(notice, source.randint(0, HIGHEST_REFERENCE), (number,) * room(notice))
            for notice in listed
        ]
        cases.append(planned_case(source, winter, plans, even_book(winter, number)))
    return cases


def nothing_spared():
    """Lists of which no event is settled, or those that are spare nothing."""
    source = random.Random(SEED)
    cases = []
    for winter, kinds in product(winters.WINTERS[::3], ((unsettled,), (idle,), (unsettled, idle))):
        shape = source.choice((one_notice, a_few, many, hundred_hours))
        listed = shape(source, winter, PROFILE)
        plans = [source.choice(kinds)(source, notice) for notice in listed]
        cases.append(planned_case(source, winter, plans))
    return cases


def edge_references():
    """References of 0, 1 and the highest with readings of 0, 1 and the highest, and those that
    spare just nothing, 1 Wh, or are 1 Wh above."""
    source = random.Random(SEED)
    cases = []
    for notice, reference, reading in product(
        ((38, 6, 9), (38, 16, 20)), (0, 1, 5_000, HIGHEST_REFERENCE - 1, HIGHEST_REFERENCE),
        (0, 1, 4_999, 5_000, 5_001, HIGHEST_READING - 1, HIGHEST_READING),
    ):
        hours = room(notice)
        for last in {reading, max(0, reading - 1), min(HIGHEST_READING, reading + 1)}:
            plan = Plan(notice, reference, (reading,) * (hours - 1) + (last,))
            cases.append(planned_case(source, 2027, [plan]))
    return cases


# Powers and credits.


def around_bounds():
    """Means exactly at every bound, at the nearest sums to both sides of it, and up to a kW off."""
    source = random.Random(SEED)
    cases = []
    for bound, count in product(BOUNDS, COUNTS):
        near = range(-9, 10)
        far = (count, KW // 12, KW * count // 2, KW * count - 1, KW * count, KW * count + 1)
        offs = sorted({*near, *far, *(-off for off in far)})
        for lengths, off in product(drawn_lengths(source, count), offs):
            made = sum_case(source, lengths, bound * KW * count + off)
            cases += [made] if made else []
    return cases


def sums_at(source, rate, count, off):
    """Sums of so many settled events within a rate, of which the credit is half a cent over a whole
    number, or so many of its smallest steps off from there. Of a rate and a count for which it is
    never a half, the step below stands for that."""
    at = RATES.index(rate)
    low = BOUNDS[at - 1] * KW * count + (at > 1)
    high = (*BOUNDS, 10_000)[at] * KW * count
    common = gcd(rate, 120_000 * count)
    period = 120_000 * count // common
    first = (60_000 * count // common + off) * pow(rate // common, -1, period) % period
    while True:
        total = source.randint(low, high)
        total += (first - total) % period
        if total <= high:
            yield total


def around_halves():
    """Credits at a half of a cent, and as little as can be under and above it, at every rate."""
    source = random.Random(SEED)
    cases = []
    for rate, count, off, _ in product(RATES[1:], (*COUNTS, 4, 8, 16), (-1, 0, 1), range(2)):
        every = list(drawn_lengths(source, count))
        made = (
            sum_case(source, source.choice(every), total)
            for total in sums_at(source, rate, count, off)
        )
        cases.append(next(filter(None, made)))
    return cases


def every_power():
    """Every whole kW from 0 to 20 and around each bound, in one event and in several, a little less
    and a little more."""
    source = random.Random(SEED)
    kws = sorted({*range(21), *(bound + off for bound in BOUNDS for off in (-2, -1, 0, 1, 2))})
    cases = []
    for kw, off in product(kws, (-12, 0, 12, 6_000)):
        lengths = source.choice(([3], [4], [3, 4], [3, 4, 4, 3, 3]))
        made = sum_case(source, lengths, max(0, kw * KW * len(lengths) + off))
        cases += [made] if made else []
    return cases


def largest_credits():
    """Events that each spare the most, alone and in the longest lists, and one Wh less."""
    source = random.Random(SEED)
    cases = []
    for winter, lengths in product(
        (2010, 2026, 2027, 2098), ([3], [4], [3] * MOST_SHORT, [4] * MOST_LONG, [3, 4] * 14),
    ):
        listed = notices_of(source, winter, lengths)
        plans = [Plan(notice, HIGHEST_REFERENCE, (0,) * room(notice)) for notice in listed]
        cases.append(planned_case(source, winter, plans))
        at = source.randrange(len(plans))
        less = sparing(source, listed[at], room(listed[at]) * HIGHEST_REFERENCE - 1)
        cases.append(planned_case(source, winter, [*plans[:at], less, *plans[at + 1:]]))
    return cases


def random_calls():
    """Plausible calls, in most of which something is made random."""
    how_many = (0, 0, 1, 1, 1, 1, 2, len(ANYTHING))
    return changed_cases(random.Random(SEED), RANDOM_CALLS, plausible_call, ANYTHING, how_many)


GROUPS = (
    ("small lists in every winter", every_winter),
    ("the longest lists in every winter", full_lists),
    ("more hours or notices than can be", too_many_hours),
    ("spoilt lists", spoilt_lists),
    ("33 notices spoilt at every place", faults_at_every_place),
    ("several rules broken at once", wrong_calls),
    ("a reference too high at every place", high_references),
    ("several references too high", several_high_references),
    ("lengths of books", book_lengths),
    ("lengths of lists", list_lengths),
    ("lengths of references", reference_lengths),
    ("lengths of outputs and totals", output_lengths),
    ("a fault at each needed reading", each_needed_fault),
    ("pairs of faults", pairs_of_faults),
    ("faults at all readings not needed", unneeded_faults),
    ("any numbers at readings not needed", unneeded_numbers),
    ("books of one number", even_books),
    ("nothing spared", nothing_spared),
    ("references and readings at the edges", edge_references),
    ("powers around every bound", around_bounds),
    ("credits around half a cent", around_halves),
    ("powers of whole kW and a little off", every_power),
    ("the largest credits", largest_credits),
    ("random calls", random_calls),
)
