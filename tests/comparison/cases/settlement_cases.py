"""The groups of calls from C that the list check and the settlement are compared on.

Most calls are built for a number and a place, many for all their lines too. Everything is drawn
from one seed, so the calls are the same in every run.
"""

import random
from datetime import date, timedelta
from itertools import product

from cases.calls import LINE_BYTES, LONGEST_PART, Check
from cases.checks import ACCEPTED, Case
from cases.clock_calls import CALL_GROUPS
from cases.event_books import EVENT_HOURS, FAULTS, FAULTY_BOOKS, LIMIT, RELATIONS, far_above_limit
from cases.notice_lists import (
    FARTHEST, WAYS, a_few, beside_excluded_days, empty_list, first_and_last_days, flat,
    hundred_hours, hundred_notices, list_of_count, many, one_notice, open_days, spoil,
    two_events_a_day,
)
from cases.schedule_cases import GROUPS as LIST_GROUPS
from cases.schedule_cases import WRONG_PROFILES, WRONG_WINTERS
from cases.settlement_books import (
    LARGEST_ENERGY, drawn_book, drawn_savings, full_mornings, largest_book, level_book,
    level_energies, lowered, needed_places, only_needed, packed, warm_up_places,
)
from cases.settlement_calls import (
    ANYTHING, EDGE_PRICES, LONGEST_LIST, NOTICE_BYTES, WRONG_PRICES, built_lines, changed_cases,
    drawn_list, drawn_placing, drawn_price, even_case, faulty_case, level_case, plausible_call,
    settle, trial_case, wrong_books, wrong_call,
)
from second import settlements, winters
from second.energies import HIGHEST_READING, HOURS, MISSING
from second.notices import MOST_NOTICES

# Prices at which many energies are worth an exact half: at 1,000,000 every energy that is 9
# more than a multiple of 18.
HALVING_PRICES = (1_000_000, 1_000_000, 500_000, 250_000, 200_000, 100_000, 50_000)

SEED = 2026
LISTS_OF_A_GROUP = 400
RANDOM_CHECKS = 1_000
RANDOM_SETTLEMENTS = 1_200


# The groups of list checks.


def lists_of_the_check():
    """Lists of each group that the list check is compared on."""
    source = random.Random(SEED)
    groups = [make() for _, make in LIST_GROUPS]
    drawn = [case for cases in groups for case in source.sample(cases, LISTS_OF_A_GROUP)]
    return [
        Case(Check(winter, profile, packed(numbers), drawn_placing(source)), built_for)
        for (winter, profile, numbers), built_for in drawn
    ]


# Lengths of lists in bytes: up to 40, and around the longest list and that of 101 notices.
LIST_LENGTHS = (
    *range(41), *range(LONGEST_LIST - 13, LONGEST_LIST + 30), 2 * LONGEST_LIST, 3 * LONGEST_LIST,
)


def built_for_length(length):
    return ACCEPTED if length % NOTICE_BYTES == 0 and length <= LONGEST_LIST else (4, 0)


def checked_lengths():
    """The first bytes of the longest list, with zeros behind it, and of a short one."""
    source = random.Random(SEED)
    longest = packed(flat(hundred_notices(source, 2026, 1))) + bytes(3 * LONGEST_LIST)
    short = packed(flat(list_of_count(source, 2027, 2, 4, 12)))
    calls = (*product([(2026, 1, longest)], LIST_LENGTHS), *product([(2027, 2, short)], range(41)))
    return [
        Case(
            Check(winter, profile, lent[:length], drawn_placing(source)),
            built_for_length(length),
        )
        for (winter, profile, lent), length in calls
    ]


def wrong_checks():
    """Winters, profiles and lengths in bytes, wrong alone and together."""
    source = random.Random(SEED)
    valid = packed((37, 6, 9, 38, 16, 20))
    cases = []
    for winter, profile, lent in product(
        (2010, 2027, 2098, *WRONG_WINTERS), (1, 2, *WRONG_PROFILES),
        (b"", valid, valid[:-1], valid + b"\0", valid[:-4], b"\xff" * LONGEST_LIST + b"\xff"),
    ):
        wrong = (winter in WRONG_WINTERS, profile in WRONG_PROFILES, len(lent) % 12 != 0)
        broken = [number for number, is_wrong in zip((1, 5, 4), wrong) if is_wrong]
        query = Check(winter, profile, lent, drawn_placing(source))
        cases.append(Case(query, (broken[0], 0) if broken else ACCEPTED))
    return cases


def random_checks():
    """Random bytes; winter and profile are mostly right."""
    source = random.Random(SEED)
    return [
        Case(Check(
            source.choice((*winters.WINTERS, source.randrange(2**32))),
            source.choice((1, 1, 1, 2, 2, 2, source.randrange(2**32))),
            source.randbytes(source.choice((0, 12, 24, 60, 1200, source.randrange(LONGEST_PART)))),
            drawn_placing(source),
        ))
        for _ in range(RANDOM_CHECKS)
    ]


# The groups of settlements.


def small_lists():
    """Small lists of several shapes in every winter, with drawn books."""
    source = random.Random(SEED)
    shapes = (
        empty_list, one_notice, a_few, two_events_a_day, first_and_last_days,
        beside_excluded_days,
    )
    cases = []
    for winter, shape in product(winters.WINTERS, shapes):
        listed = shape(source, winter, 1)
        book = packed(lowered(source, drawn_book(source, winter), listed))
        cases.append(Case(settle(source, winter, book, drawn_price(source), listed), ACCEPTED))
    return cases


def full_lists():
    """Full lists in every winter: 100 notices of an hour, 25 mornings of four hours, and
    100 hours in notices of any length; half with drawn books, half with level ones."""
    source = random.Random(SEED)
    cases = []
    for winter in winters.WINTERS:
        lists = [
            hundred_notices(source, winter, 1), full_mornings(source, winter),
            hundred_hours(source, winter, 1),
        ]
        for listed in lists:
            price = drawn_price(source)
            if source.randrange(2):
                cases.append(level_case(source, winter, listed, price))
                continue
            book = packed(lowered(source, drawn_book(source, winter), listed))
            cases.append(Case(settle(source, winter, book, price, listed), ACCEPTED))
    return cases


def level_books():
    """Level books in every winter, at prices that make halves: every line is known."""
    source = random.Random(SEED)
    return [
        level_case(source, winter, shape(source, winter, 1), source.choice(HALVING_PRICES))
        for winter in winters.WINTERS
        for shape in (one_notice, a_few, a_few, many, two_events_a_day)
    ]


def spoilt_lists():
    """Lists spoilt once, in every way possible under profile 1."""
    source = random.Random(SEED)
    cases = []
    for winter in winters.WINTERS:
        book = packed(drawn_book(source, winter))
        for way in source.sample(WAYS, 8):
            shape = source.choice((a_few, many, hundred_hours))
            made = spoil(source, winter, 1, shape(source, winter, 1), way)
            if made:
                listed, fault = made
                cases.append(Case(settle(source, winter, book, drawn_price(source), listed), fault))
    return cases


def faults_at_every_place():
    """A list of 100 notices, spoilt at every place, so that many lines stand before it."""
    source = random.Random(SEED)
    listed = hundred_notices(source, 2026, 1)
    book = packed(drawn_book(source, 2026))
    cases = []
    for place in range(len(listed)):
        ways = source.sample(WAYS, len(WAYS))
        made = filter(None, (way(source, 2026, 1, listed, place) for way in ways))
        spoilt, fault = next(made)
        cases.append(Case(settle(source, 2026, book, 50_000, spoilt), fault))
    return cases


def wrong_calls():
    """Winter, book, price, list, output and notices, wrong alone and together."""
    source = random.Random(SEED)
    return [
        wrong_call(source, winter, wrong)
        for winter, wrong in product(
            (2010, 2026, 2027, 2098), product((False, True), repeat=6),
        )
    ]


def book_lengths():
    """The right book of winters of both lengths, beside those of wrong lengths in bytes."""
    source = random.Random(SEED)
    cases = []
    for winter in (2026, 2027):
        listed = a_few(source, winter, 1)
        right = level_case(source, winter, listed, drawn_price(source))
        cases.append(right)
        for length in wrong_books(winter):
            book = (right.query.book * 2)[:length]
            wrong = settle(source, winter, book, drawn_price(source), listed)
            cases.append(Case(wrong, (2, 0)))
    return cases


def list_lengths():
    """The first bytes of a list of 100 notices, in an output that would do for them all."""
    source = random.Random(SEED)
    listed = hundred_notices(source, 2026, 1)
    query = level_case(source, 2026, listed, 50_000, spare=3_000).query
    lent = query.listed + bytes(3 * LONGEST_LIST)
    return [
        Case(query._replace(listed=lent[:length]), built_for_length(length))
        for length in LIST_LENGTHS
    ]


def output_lengths():
    """Outputs of 0 to 40 bytes, and a little shorter and longer than needed. The same lines
    are written in each that is long enough, and what is over stays as it was."""
    source = random.Random(SEED)
    cases = []
    for count in (0, 1, 1, 2, 3, 25, 100):
        listed = list_of_count(source, 2027, 1, count, count)
        need = LINE_BYTES * count
        right = level_case(source, 2027, listed, drawn_price(source))
        around = range(max(0, need - 9), need + 10)
        for length in sorted({*range(41), *around, need + 31, need + 32, need + 700}):
            query = right.query._replace(
                length=length, fill=source.randrange(256), placing=drawn_placing(source),
            )
            cases.append(Case(query, right.built_for if length >= need else (6, 0)))
    return cases


def prices():
    """The prices at the edges and random ones, for a book that makes lines of any kind."""
    source = random.Random(SEED)
    cases = []
    for price in (*EDGE_PRICES, *(source.randint(1, 1_000_000) for _ in range(200))):
        winter = source.choice(winters.WINTERS)
        cases.append(level_case(source, winter, a_few(source, winter, 1), price))
    for price in (*WRONG_PRICES, *(source.randint(1_000_001, FARTHEST) for _ in range(40))):
        query = source.choice(cases[:200]).query
        cases.append(Case(query._replace(price=price), (3, 0)))
    return cases


def trials_around_the_limit():
    """One notice of every start and end, with a trial just at the limit and to both sides,
    and A and B in every relation."""
    source = random.Random(SEED)
    cases = []
    for hours, relation, off in product(EVENT_HOURS, (*RELATIONS, far_above_limit), (-18, 0, 18)):
        winter = source.choice(winters.WINTERS)
        notice = (source.choice(open_days(winter, 1)), *hours)
        made = trial_case(source, winter, notice, relation, LIMIT + off)
        cases += [made] if made else []
    return cases


def needed_faults():
    """Faults at one to six needed readings, in every winter."""
    source = random.Random(SEED)
    cases = []
    for winter, count in product(winters.WINTERS, (1, 1, 2, 3, 6)):
        listed = source.choice((one_notice, a_few, many, two_events_a_day))(source, winter, 1)
        chosen = [source.choice(listed) for _ in range(count)]
        places = [source.choice(needed_places(winter, listed, notice)) for notice in chosen]
        faulty = {place: source.choice(list(FAULTS)) for place in places}
        cases.append(faulty_case(source, winter, listed, drawn_price(source), faulty))
    return cases


def each_needed_fault():
    """A fault of each code at each needed reading of a list in turn."""
    source = random.Random(SEED)
    listed = [(34, 6, 7), (38, 16, 20), (57, 9, 10)]
    places = {at for notice in listed for at in needed_places(2026, listed, notice)}
    return [
        faulty_case(source, 2026, listed, 50_000, {place: number})
        for place in sorted(places)
        for number in (MISSING, HIGHEST_READING + 1)
    ]


def unneeded_faults():
    """Faults at all readings that no notice needs: none of them counts."""
    source = random.Random(SEED)
    cases = []
    for winter in winters.WINTERS:
        listed = drawn_list(source, winter)
        right = level_case(source, winter, listed, drawn_price(source))
        book = only_needed(source, winter, settlements.lent_numbers(right.query.book), listed)
        cases.append(Case(right.query._replace(book=packed(book)), right.built_for))
    return cases


def even_books():
    """Books of one number: nothing used, 1 Wh, the highest reading, and every fault."""
    source = random.Random(SEED)
    return [
        even_case(source, winter, number, drawn_list(source, winter))
        for winter in winters.WINTERS[::6]
        for number in (0, 1, HIGHEST_READING, *FAULTS)
    ]


def largest_energies():
    """25 mornings that each spare the most, at the edge prices: the largest sums of all."""
    source = random.Random(SEED)
    cases = []
    for winter, price in product((2010, 2026, 2027, 2098), EDGE_PRICES):
        listed = full_mornings(source, winter)
        book = packed(largest_book(winter, listed))
        built_for = built_lines([(0, 0, LARGEST_ENERGY)] * len(listed), price)
        cases.append(Case(settle(source, winter, book, price, listed), built_for))
    return cases


# Lists that leave as few days to serve as an accepted list can, and the days of November, the only
# ones that are left. Weekdays are told by the dates here, not by the second program.


def weekend_day(winter, day):
    return (date(winter, 11, 1) + timedelta(day)).weekday() >= 5


def fullest_lists(source, winter):
    """Lists with an event of an hour on each of 100 days, on every weekend day and on every weekday
    that may have one: all from the first on, so that behind November no day of the kind of an
    event is left before it."""
    days = open_days(winter, 1)
    for chosen in (
        days[:MOST_NOTICES],
        [day for day in days if weekend_day(winter, day)],
        [day for day in days if not weekend_day(winter, day)],
    ):
        starts = [source.choice((6, 7, 8, 9, 16, 17, 18, 19)) for _ in chosen]
        yield [(day, s, s + 1) for day, s in zip(chosen, starts)]


def november_serves(winter):
    """The last five weekdays of November and its last five weekend days, the nearest first."""
    return {
        kind: [day for day in reversed(range(30)) if weekend_day(winter, day) == kind][:5]
        for kind in (False, True)
    }


def fullest_cases(source, winter, listed):
    """A book with readings on the event days and on those days of November alone: every event is
    settled. The same without a fifth day, or with one that is too high: no event is, and its place
    is on the fifth day of its kind."""
    serve = november_serves(winter)
    savings = drawn_savings(source, listed)
    book = level_book(winter, listed, savings)
    read = {*(day for day, _, _ in listed), *serve[False], *serve[True]}
    for place in range(len(book)):
        if place // HOURS not in read:
            book[place] = MISSING
    price = drawn_price(source)
    lines = [(0, 0, energy) for energy in level_energies(winter, listed, savings)]
    yield Case(settle(source, winter, packed(book), price, listed), built_lines(lines, price))

    code, fault = source.choice(((21, MISSING), (22, HIGHEST_READING + 1)))
    for days in serve.values():
        book[HOURS * days[4]:HOURS * (days[4] + 1)] = [fault] * HOURS
    lines = []
    for notice in listed:
        fifth = serve[weekend_day(winter, notice[0])][4]
        lines.append((code, HOURS * fifth + warm_up_places(winter, notice)[0] % HOURS, 0))
    yield Case(settle(source, winter, packed(book), price, listed), built_lines(lines, price))


def most_event_days():
    """The lists that leave as few days to serve as can be, in every winter."""
    source = random.Random(SEED)
    return [
        case
        for winter in winters.WINTERS
        for listed in fullest_lists(source, winter)
        for case in fullest_cases(source, winter, listed)
    ]


def faulty_books():
    """Books that are full of faults, or of numbers around the highest reading."""
    source = random.Random(SEED)
    cases = []
    for winter in winters.WINTERS:
        listed = drawn_list(source, winter)
        book = packed(drawn_book(source, winter, FAULTY_BOOKS))
        cases.append(Case(settle(source, winter, book, drawn_price(source), listed), ACCEPTED))
    return cases


def random_settlements():
    """Plausible settlements, in more than half of which something is made random."""
    how_many = (0, 0, 0, 1, 1, 1, 2, len(ANYTHING))
    return changed_cases(
        random.Random(SEED), RANDOM_SETTLEMENTS, plausible_call, ANYTHING, how_many,
    )


GROUPS = (
    ("check: lists of the list check's groups", lists_of_the_check),
    ("check: lengths in bytes", checked_lengths),
    ("check: wrong winters, profiles and lengths", wrong_checks),
    ("check: random bytes", random_checks),
    ("small lists in every winter", small_lists),
    ("full lists in every winter", full_lists),
    ("level books in every winter", level_books),
    ("spoilt lists", spoilt_lists),
    ("100 notices spoilt at every place", faults_at_every_place),
    ("several rules broken at once", wrong_calls),
    ("lengths of books", book_lengths),
    ("lengths of lists", list_lengths),
    ("lengths of outputs", output_lengths),
    ("prices", prices),
    ("trials around the limit", trials_around_the_limit),
    ("faults at needed readings", needed_faults),
    ("a fault at each needed reading", each_needed_fault),
    ("faults at all readings not needed", unneeded_faults),
    ("books of one number", even_books),
    ("the largest energies", largest_energies),
    ("events on as many days as can be", most_event_days),
    ("faulty books", faulty_books),
    *CALL_GROUPS,
    ("random settlements", random_settlements),
)
