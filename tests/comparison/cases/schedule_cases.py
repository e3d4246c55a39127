"""The groups of lists that the list check is compared on.

Where a list is spoilt in one way, the number and the place that it must get are known.
Everything is drawn from one seed, so the lists are the same in every run.
"""

import random
from itertools import combinations, product

from cases.checks import ACCEPTED, Case
from cases.layers import ListQuery
from cases.notice_lists import (
    BARRED_DAYS, FAR_DAYS, FAR_HOURS, FARTHEST, WAYS, WRONG_HOURS, allowed_hours, drawn_slots,
    every_shape, flat, hours_told, list_of_count, list_of_hours, notice_in, open_days, open_slots,
    room, spoil,
)
from second import winters
from second.notices import MOST_NOTICES, PROFILES

EDGE_NUMBERS = (
    0, 5, 6, 9, 10, 11, 15, 16, 17, 19, 20, 21, 23, 24, 25, 29, 30, 150, 151, 152,
    *sorted({*FAR_HOURS, *FAR_DAYS}),
)
WRONG_WINTERS = (
    0, 1, 1999, 2009, 2099, 2100, 65536 + 2026, 2**31, 2**31 + 2026, FARTHEST - 1, FARTHEST,
)
WRONG_PROFILES = (
    0, 3, 4, 12, 256 + 1, 65536 + 2, 2**31 + 1, 2**31 + 2, FARTHEST - 1, FARTHEST,
)

# The longest list the driver reads.
MOST_NUMBERS = 400

LONG_LIST = 40

SEED = 2026
RANDOM_LISTS = 10_000


def valid_lists():
    """Six of every shape for every winter."""
    source = random.Random(SEED)
    return [
        Case(ListQuery(winter, profile, flat(listed)), ACCEPTED)
        for _ in range(6)
        for winter, profile, listed in every_shape(source)
    ]


def every_day():
    """One notice of allowed hours, on every day of every winter and just outside."""
    source = random.Random(SEED)
    return [
        Case(ListQuery(winter, profile, (day, *source.choice(allowed_hours(profile)))))
        for winter, profile, day in product(winters.WINTERS, PROFILES, range(154))
    ]


def spoilt_lists():
    """Lists of every shape, each spoilt once in every way possible for it; the long ones
    only in a few of the ways, to keep the run short."""
    source = random.Random(SEED)
    cases = []
    for winter, profile, listed in every_shape(source):
        for way in WAYS if len(listed) <= LONG_LIST else source.sample(WAYS, 5):
            made = spoil(source, winter, profile, listed, way)
            if made:
                spoilt, fault = made
                cases.append(Case(ListQuery(winter, profile, flat(spoilt)), fault))
    return cases


def faults_at_every_place():
    """The longest lists that are valid, at every place spoilt once for each number."""
    source = random.Random(SEED)
    cases = []
    for winter, profile, count in ((2026, 1, 100), (2027, 2, 33)):
        listed = list_of_count(source, winter, profile, count, 100)
        for place in range(count + 1):
            by_number = {}
            for way in source.sample(WAYS, len(WAYS)):
                made = way(source, winter, profile, listed, place)
                if made:
                    spoilt, fault = made
                    by_number[fault[0]] = Case(ListQuery(winter, profile, flat(spoilt)), fault)
            cases += by_number.values()
    return cases


def around_the_limit(source, profile, place, hours):
    """A list with so many hours before the place that the notice there passes the limit,
    with a few notices behind it or none; and the list of those before the place."""
    winter = source.choice(winters.WINTERS)
    lengths = PROFILES[profile].lengths
    left = PROFILES[profile].winter_hours - hours
    behind = source.choice((0, min(3, MOST_NOTICES - 1 - place)))
    slots = drawn_slots(
        source, winter, profile, place + 1 + behind,
        lambda drawn: sum(map(room, drawn[:place])) >= hours and room(drawn[place]) > left,
    )
    before = list_of_hours(source, profile, slots[:place], hours)
    passing = [length for length in sorted(lengths) if left < length <= room(slots[place])]
    rest = [notice_in(source, slots[place], source.choice(passing))]
    rest += [notice_in(source, slot, min(lengths)) for slot in slots[place + 1:]]
    return [
        Case(ListQuery(winter, profile, flat(before)), ACCEPTED),
        Case(ListQuery(winter, profile, flat([*before, *rest])), (18, place)),
    ]


def limits():
    """The limit passed at every place possible, from 97, 98, 99 and 100 hours on. Five
    rounds for profile 2, which has fewer such places."""
    source = random.Random(SEED)
    cases = []
    for profile, rounds in ((1, 1), (2, 5)):
        shortest, longest = min(PROFILES[profile].lengths), max(PROFILES[profile].lengths)
        for place, hours, _ in product(range(25, 100), range(97, 101), range(rounds)):
            if shortest * place <= hours <= longest * place:
                cases += around_the_limit(source, profile, place, hours)
    return cases


def list_lengths():
    """The first numbers of a long list, as many as the driver reads: 0 to 400. Its first
    100 notices stand under profile 1, its first 33 under profile 2."""
    source = random.Random(SEED)
    cases = []
    for winter, profile, count in ((2026, 1, 100), (2027, 2, 33)):
        slots = open_slots(winter, profile)
        listed = list_of_hours(source, profile, slots[:count], 100)
        numbers = flat([*listed, *slots[count:]])
        for length in range(MOST_NUMBERS + 1):
            if length % 3 != 0 or length > 300:
                built_for = (4, 0)
            elif length > 3 * count:
                built_for = (18, count)
            else:
                built_for = ACCEPTED
            cases.append(Case(ListQuery(winter, profile, numbers[:length]), built_for))
    return cases


def wrong_calls():
    """Winters, profiles and lengths, wrong alone and together, with valid and with broken
    notices. What breaks no rule for the whole call is left to the second program."""
    valid = (37, 6, 9, 38, 16, 20, 101, 17, 20)
    broken = (38, 9, 6)
    lists = (
        (), valid, broken, valid[:1], valid[:-1], (*valid, 150), 100 * broken, 101 * broken,
        101 * broken[:1],
    )
    cases = []
    for winter, profile, numbers in product(
        (2010, 2026, 2027, 2098, *WRONG_WINTERS), (1, 2, *WRONG_PROFILES), lists,
    ):
        if winter in WRONG_WINTERS:
            built_for = (1, 0)
        elif profile in WRONG_PROFILES:
            built_for = (5, 0)
        elif len(numbers) % 3 != 0 or len(numbers) > 300:
            built_for = (4, 0)
        else:
            built_for = None
        cases.append(Case(ListQuery(winter, profile, numbers), built_for))
    return cases


def edge_numbers():
    """The numbers at the edges of the rules and the far ones, in every two places of a
    notice: of the only one, of a second one, and of one that follows on its own day."""
    cases = []
    for winter, before in ((2026, ()), (2027, ()), (2026, (31, 17, 20)), (2027, (38, 6, 9))):
        for places in combinations(range(3), 2):
            for edges in product(EDGE_NUMBERS, repeat=2):
                notice = [38, 16, 19]
                for place, number in zip(places, edges):
                    notice[place] = number
                numbers = (*before, *notice)
                cases += [Case(ListQuery(winter, profile, numbers)) for profile in PROFILES]
    return cases


def every_start_and_end():
    """Every start and end that a day has, and some past it, under either profile: as the only
    notice, behind another, before another and between two."""
    numbers = (*range(27), *FAR_HOURS)
    before, behind = (37, 6, 9), (39, 16, 20)
    cases = []
    for profile, s, e in product(PROFILES, numbers, numbers):
        number = hours_told(profile, s, e)
        for listed in ([], [before], [before, behind], [behind]):
            place = listed.count(before)
            numbers_of = flat([*listed[:place], (38, s, e), *listed[place:]])
            built_for = (number, place) if number else ACCEPTED
            cases.append(Case(ListQuery(2026, profile, numbers_of), built_for))
    return cases


def several_faults():
    """Lists of every shape, spoilt in two to four ways one after the other. Some have a
    number too many, a wrong profile or a wrong winter besides."""
    source = random.Random(SEED)
    cases = []
    for _ in range(2):
        for winter, profile, listed in every_shape(source):
            for way in source.sample(WAYS, source.randint(2, 4)):
                made = spoil(source, winter, profile, listed, way)
                listed = made[0] if made else listed
            extra = (38,) if source.randrange(8) == 0 else ()
            if source.randrange(8) == 0:
                profile = source.choice(WRONG_PROFILES)
            if source.randrange(8) == 0:
                winter = source.choice(WRONG_WINTERS)
            cases.append(Case(ListQuery(winter, profile, flat(listed) + extra)))
    return cases


def one_of_each(source, kinds, *about):
    """One day, or one pair of hours, of each kind that has any."""
    found = [kind(*about) for _, kind in kinds]
    return [source.choice(options) for options in found if options]


def several_faults_in_one_notice():
    """A last notice with a day and hours of every kind, after one notice and after 100
    hours, so that it breaks many rules at once."""
    source = random.Random(SEED)
    cases = []
    for winter, (profile, count) in product(winters.WINTERS[::8], ((1, 60), (2, 32))):
        # Open days are left over before and behind these.
        slots = sorted(source.sample(open_slots(winter, profile)[20:-20], count))
        full = list_of_hours(source, profile, slots, 100)
        first, *_, last = open_days(winter, profile)
        days = (first, full[-1][0], last)
        hours = allowed_hours(profile)
        wrong_days = one_of_each(source, BARRED_DAYS, winter, profile)
        wrong_hours = one_of_each(source, WRONG_HOURS, profile)
        endings = (
            *product(days, hours),
            *product(days, wrong_hours),
            *product(wrong_days, (hours[0], *wrong_hours)),
        )
        for before, (day, (s, e)) in product((full[-1:], full), endings):
            cases.append(Case(ListQuery(winter, profile, flat([*before, (day, s, e)]))))
    return cases


def random_lists():
    """Mostly plausible numbers, and mostly in order of the days; one number in fifty is any
    number of 32 bits, and so is every number of one list in ten."""
    source = random.Random(SEED)
    likely_hours = (*allowed_hours(1), *allowed_hours(2))
    other_hours = list(product(range(26), repeat=2))

    def number(plausible):
        return source.choice(plausible) if source.randrange(50) else source.randrange(2**32)

    def notice(day):
        s, e = source.choice(likely_hours if source.randrange(5) else other_hours)
        return day, number([s]), number([e])

    def plausible_list():
        days = [number(range(28, 154)) for _ in range(source.randrange(7))]
        if source.randrange(10):
            days.sort()
        return flat(notice(day) for day in days)

    def any_list():
        return tuple(source.randrange(2**32) for _ in range(source.randrange(13)))

    return [
        Case(ListQuery(
            number(range(2008, 2101)),
            number((1, 2)),
            plausible_list() if source.randrange(10) else any_list(),
        ))
        for _ in range(RANDOM_LISTS)
    ]


GROUPS = (
    ("valid lists", valid_lists),
    ("every day of every winter", every_day),
    ("spoilt lists", spoilt_lists),
    ("a fault at every place", faults_at_every_place),
    ("hours around the limit", limits),
    ("every length of a list", list_lengths),
    ("wrong winters, profiles and lengths", wrong_calls),
    ("edge numbers", edge_numbers),
    ("every start and end of a notice", every_start_and_end),
    ("several faults", several_faults),
    ("several faults in one notice", several_faults_in_one_notice),
    ("random lists", random_lists),
)
