"""The groups of events that the spared energy is compared on.

An event is asked about with any list and any book. Where its line is known beforehand, the
case is built for it. Everything is drawn from one seed, so the events are the same in every run.
"""

import random
from itertools import product

from cases.checks import Case
from cases.clock_events import EVENT_GROUPS
from cases.event_books import (
    DAY_HOURS, EVENT_HOURS, FAULTS, FAULTY_BOOKS, LIMIT, MOST_CHANGES, RELATIONS, SOUND_BOOKS, Sums,
    bare_query, compared, drawn_query, drawn_sums, far_above_limit, leaving_free, lengths, limited,
    marked, needed, period, references, settled, step, sums_for, unlimited, unmarking, with_book,
    with_readings,
)
from cases.notice_lists import FAR_DAYS, FAR_HOURS, FARTHEST, every_shape, flat, hours_told
from second import energies, notices, winters
from second.energies import HIGHEST_READING, LONGEST_BOOK, MISSING, Query, place_of
from second.notices import Notice

WRONG_WINTERS = (0, 2009, 2099, 2**16 + 2026, 2**31 + 2026, FARTHEST)
WRONG_DAYS = (0, 29, 152, *FAR_DAYS)
WRONG_HOURS = (
    (6, 6), (9, 6), (5, 7), (8, 11), (9, 17), (10, 16), (15, 17), (19, 21), (0, 24), (6, 20),
    (20, 24), (6, FARTHEST), (FARTHEST, 9), (2**31 + 6, 2**31 + 9),
)

SEED = 2026
RANDOM_QUERIES = 1_400


def days_of_every_winter():
    """The first and last days of the period, the excluded days and those behind them, and
    some others."""
    source = random.Random(SEED)
    cases = []
    for winter in winters.WINTERS:
        days = period(winter)
        excluded = notices.day_kinds(winter).excluded
        behind = {day + 1 for day in excluded if day + 1 in days}
        for day in sorted({*days[:8], *days[-4:], *excluded, *behind, *source.sample(days, 8)}):
            cases.append(compared(source, drawn_query(source, winter, day)))
    return cases


def every_day():
    """Every day of two winters, and the days just outside: the period ends on day 150 in
    one of them and on day 151 in the other."""
    source = random.Random(SEED)
    cases = []
    for winter, day in product((2026, 2027), (*range(156), *FAR_DAYS)):
        query = drawn_query(source, winter)._replace(day=day)
        built_for = None if day in period(winter) else "10"
        cases.append(Case(with_book(source, query, SOUND_BOOKS), built_for))
    return cases


def every_start_and_end():
    """Every start and end of an event in every winter, with readings of any magnitude."""
    source = random.Random(SEED)
    cases = []
    for winter, hours in product(winters.WINTERS, EVENT_HOURS):
        query = drawn_query(source, winter, hours=hours)
        sums = drawn_sums(source, *lengths(query))
        cases.append(settled(source, query, references(query), sums))
    return cases


def hours_of_a_day():
    """Every start and end that a day has, and some far ones: most are wrong for an event."""
    source = random.Random(SEED)
    far = [*product((0, 6, 8, 16, 19), FAR_HOURS), *product(FAR_HOURS, (9, 20, *FAR_HOURS))]
    cases = []
    for hours in (*product(range(26), repeat=2), *far):
        query = with_book(source, drawn_query(source, hours=hours), SOUND_BOOKS)
        cases.append(Case(query, None if hours in EVENT_HOURS else str(hours_told(1, *hours))))
    return cases


def events_of_valid_lists():
    """Events that stand in their list; where a day has two, both."""
    source = random.Random(SEED)
    cases = []
    for winter, profile, listed in every_shape(source):
        if profile == 1 and listed:
            chosen, _, _ = source.choice(listed)
            for day, *hours in listed:
                if day == chosen:
                    cases.append(compared(source, bare_query(winter, flat(listed), day, hours)))
    return cases


def reference_days_far_back():
    """Lists that mark nearly every day, in November too, so that few days are left to
    serve: the nearest five of them, wherever they are, or code 20. With five, every reading
    that is not needed is missing; with fewer, all readings are missing or none."""
    source = random.Random(SEED)
    cases = []
    for winter, free in product(winters.WINTERS, (0, 1, 3, 4, 4, 5, 5, 5, 6, 8)):
        made = None
        while not made:
            event = Notice(source.choice(period(winter)), *source.choice(EVENT_HOURS))
            made = leaving_free(source, winter, event, free)
        listed, left = made
        query = bare_query(winter, flat(listed), event.day, (event.first, event.end))
        if free < 5:
            cases.append(Case(with_book(source, query, (*SOUND_BOOKS, (MISSING, 1))), "0,20,0,0"))
        else:
            cases.append(settled(source, query, left[:5], drawn_sums(source, *lengths(query))))
    return cases


def runs_of_event_days():
    """Long runs of days with an event each, next to the event day, in every hour of a day
    or only in some."""
    source = random.Random(SEED)
    cases = []
    for winter, run in product(winters.WINTERS[::2], (1, 5, 10, 20, 40, 70, 100)):
        day = source.choice(period(winter))
        days = range(max(0, day - run), day)
        hours = source.choice((DAY_HOURS, [(0, 24)], [(10, 16)], [(23, 24)], [(0, 1)], [(6, 7)]))
        listed = [(before, *source.choice(hours)) for before in days]
        query = bare_query(winter, flat(listed), day, source.choice(EVENT_HOURS))
        cases.append(compared(source, query))
    return cases


def lists_as_they_are():
    """Notices on the days that might serve, in any order and also twice: some mark their
    day, others nothing. Some lists have a number or two over from whole triples."""
    source = random.Random(SEED)
    cases = []
    for winter in winters.WINTERS:
        for _ in range(6):
            day = source.choice(period(winter))
            near = energies.days_of_kind(winter, day)[:12]
            listed = marked(source, source.choices(near, k=source.randrange(6)))
            listed += marked(source, [day] * source.randrange(3))
            listed += [unmarking(source, source.choice(near)) for _ in range(source.randrange(9))]
            source.shuffle(listed)
            over = (source.choice(near), 6)[:source.randrange(3)]
            query = bare_query(winter, flat(listed) + over, day, source.choice(EVENT_HOURS))
            cases.append(compared(source, query))
    return cases


def one_fault():
    """A fault at each needed reading in turn, for every start and end. The highest reading
    is none."""
    source = random.Random(SEED)
    cases = []
    for hours in EVENT_HOURS:
        query = with_book(source, drawn_query(source, hours=hours), SOUND_BOOKS)
        for pair in needed(query):
            number, code = source.choice(list(FAULTS.items()))
            faulty = with_readings(query, {pair: number})
            cases.append(Case(faulty, f"0,{code},{place_of(*pair)},0"))
        highest = with_readings(query, {source.choice(needed(query)): HIGHEST_READING})
        cases.append(Case(highest))
    return cases


def several_faults():
    """Several faults, and highest readings among them: the first fault in the order
    of rule 5.7 decides."""
    source = random.Random(SEED)
    cases = []
    for winter, count in product(winters.WINTERS, (2, 2, 3, 4, 6, 12, 18)):
        query = with_book(source, drawn_query(source, winter), SOUND_BOOKS)
        numbers = (*FAULTS, HIGHEST_READING)
        faulty = {pair: source.choice(numbers) for pair in source.sample(needed(query), count)}
        found = [pair for pair in needed(query) if faulty.get(pair) in FAULTS]
        built_for = f"0,{FAULTS[faulty[found[0]]]},{place_of(*found[0])},0" if found else None
        cases.append(Case(with_readings(query, faulty), built_for))
    return cases


def pairs_of_faults():
    """A fault of each code, one at each needed reading in turn and the other behind it, at
    the next one or farther on. The first decides, whichever code it has."""
    source = random.Random(SEED)
    cases = []
    for hours in EVENT_HOURS:
        query = with_book(source, drawn_query(source, hours=hours), SOUND_BOOKS)
        pairs = needed(query)
        for place, pair in enumerate(pairs[:-1]):
            other = source.choice((pairs[place + 1], source.choice(pairs[place + 1:])))
            number, other_number = source.sample((MISSING, HIGHEST_READING + 1), 2)
            faulty = with_readings(query, {other: other_number, pair: number})
            cases.append(Case(faulty, f"0,{FAULTS[number]},{place_of(*pair)},0"))
    return cases


def unneeded_hours(query):
    """Hours that might be taken for needed ones: of the event day and its reference days the
    other hours, of all other days the same hours."""
    pairs = set(needed(query))
    days = {day for day, _ in pairs}
    hours = {hour for _, hour in pairs}
    book = product(range(query.length // 24), range(24))
    return [pair for pair in book if (pair[0] in days) != (pair[1] in hours)]


def unneeded_faults():
    """Faults everywhere else: no reading counts but the needed ones."""
    source = random.Random(SEED)
    cases = []
    for winter in winters.WINTERS:
        for _ in range(2):
            query = with_book(source, drawn_query(source, winter), SOUND_BOOKS)
            others = source.sample(unneeded_hours(query), MOST_CHANGES)
            faulty = with_readings(query, {pair: source.choice(list(FAULTS)) for pair in others})
            right = energies.line(query)
            cases += [Case(query, right), Case(faulty, right)]
    return cases


def for_sums(source, hours, sums):
    """An event with these sums, none if there are none."""
    query = drawn_query(source, hours=hours)
    return [settled(source, query, references(query), sums)] if sums else []


def shape_of(hours):
    """H and W of an event."""
    return lengths(bare_query(2026, (), 38, hours))


def trials_around_the_limit():
    """Trials just at the limit and one step or more to both sides, with A and B in every
    relation."""
    source = random.Random(SEED)
    cases = []
    for hours, relation in product(EVENT_HOURS, RELATIONS):
        h, w = shape_of(hours)
        one = step(h, w)
        for off in (-6, -one, 0, one, one, 6, 18, 600_000):
            sums = sums_for(source, h, w, relation, unlimited, LIMIT + off)
            cases += for_sums(source, hours, sums)
    return cases


def energies_around_zero():
    """Spared energies of just 0 and one step or more to both sides: from trials that small,
    and from trials that the limit brings down to there."""
    source = random.Random(SEED)
    ways = (*((relation, unlimited) for relation in RELATIONS), (far_above_limit, limited))
    cases = []
    for hours, (relation, stands) in product(EVENT_HOURS, ways):
        h, w = shape_of(hours)
        one = step(h, w)
        for target in (-600_000, -one, 0, one, 6):
            sums = sums_for(source, h, w, relation, stands, target)
            cases += for_sums(source, hours, sums)
    return cases


def extreme_readings():
    """No use and highest use in every combination; B also where A = B, which gives the
    largest energy of all."""
    source = random.Random(SEED)
    cases = []
    for hours in EVENT_HOURS:
        h, w = shape_of(hours)
        for r, b, a, c in product((0, 3), (0, 1, 3), (0, 1), (0, 1)):
            sums = Sums(*(HIGHEST_READING * one for one in (h * r, w * b, w * a, h * c)))
            cases += for_sums(source, hours, sums)
    return cases


def wrong_lengths(winter):
    """For a winter outside, the lengths of either book and others."""
    right = 24 * len(winters.book_dates(winter)) if winter in winters.WINTERS else 3624
    other = 3648 if right == 3624 else 3624
    return (0, 1, 24, right - 24, right - 1, right + 1, right + 24, other, LONGEST_BOOK)


def wrong_calls():
    """Winters, book lengths, days and hours, wrong alone and together: the first that is
    wrong decides."""
    source = random.Random(SEED)
    cases = []
    for winter, wrong, _ in product(
        (2010, 2026, 2027, 2098), product((False, True), repeat=4), range(15),
    ):
        query = with_book(source, drawn_query(source, winter), SOUND_BOOKS)
        wrong_winter, wrong_length, wrong_day, wrong_hours = wrong
        if wrong_winter:
            query = query._replace(winter=source.choice(WRONG_WINTERS))
        if wrong_length:
            query = query._replace(length=source.choice(wrong_lengths(query.winter)))
        if wrong_day:
            query = query._replace(day=source.choice(WRONG_DAYS))
        if wrong_hours:
            start, end = source.choice(WRONG_HOURS)
            query = query._replace(start=start, end=end)
        refusals = (1, 2, 10, hours_told(1, query.start, query.end))
        broken = [number for number, is_wrong in zip(refusals, wrong) if is_wrong]
        cases.append(Case(query, str(broken[0]) if broken else None))
    return cases


def lengths_of_books():
    """The right length beside each wrong one, in winters of both lengths."""
    source = random.Random(SEED)
    cases = []
    for winter in winters.WINTERS[::5]:
        for length in wrong_lengths(winter):
            query = with_book(source, drawn_query(source, winter), SOUND_BOOKS)
            cases += [Case(query), Case(query._replace(length=length), "2")]
    return cases


def random_queries():
    """Mostly plausible numbers; one in fifty is any number of 32 bits. Changes may be
    anywhere, also past the book, and several at one index."""
    source = random.Random(SEED)
    readings = (0, 1, 250, 1_000, 40_000, HIGHEST_READING)

    def number(plausible):
        return plausible if source.randrange(50) else source.randrange(2**32)

    def change(likely):
        index = place_of(*source.choice(likely)) if source.randrange(2) else source.randrange(3_720)
        value = source.choice(readings if source.randrange(20) else list(FAULTS))
        return number(index), number(value)

    def spoilt_list(query):
        listed = [number(part) for part in query.numbers]
        days = source.choices(range(154), k=source.choice((0, 0, 10, 90)))
        return tuple([*listed, *flat(marked(source, days))][:source.choice((300, 300, 299, 40))])

    cases = []
    for _ in range(RANDOM_QUERIES):
        query = drawn_query(source)
        query = with_book(source, query, SOUND_BOOKS if source.randrange(3) else FAULTY_BOOKS)
        likely = needed(query)
        changes = tuple(change(likely) for _ in range(source.choice((0, 1, 4, MOST_CHANGES))))
        cases.append(Case(Query(
            winter=number(query.winter),
            numbers=spoilt_list(query),
            length=query.length if source.randrange(50) else source.randrange(LONGEST_BOOK + 1),
            seed=query.seed,
            low=number(query.low),
            spread=number(query.spread),
            changes=changes,
            day=number(query.day),
            start=number(query.start),
            end=number(query.end),
        )))
    return cases


GROUPS = (
    ("days of every winter", days_of_every_winter),
    ("every day of two winters", every_day),
    ("every start and end in every winter", every_start_and_end),
    ("all hours of a day", hours_of_a_day),
    ("events of valid lists", events_of_valid_lists),
    ("reference days far back", reference_days_far_back),
    ("runs of event days", runs_of_event_days),
    ("lists taken as they are", lists_as_they_are),
    ("one fault", one_fault),
    ("several faults", several_faults),
    ("pairs of faults", pairs_of_faults),
    ("unneeded faults", unneeded_faults),
    ("trials around the limit", trials_around_the_limit),
    ("energies around 0", energies_around_zero),
    ("extreme readings", extreme_readings),
    ("wrong winters, lengths, days and hours", wrong_calls),
    ("lengths of books", lengths_of_books),
    *EVENT_GROUPS,
    ("random queries", random_queries),
)
