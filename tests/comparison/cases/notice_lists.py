"""Lists of notices for the tests: valid ones of many shapes, and ways to spoil them.

Valid lists are built by what the rules allow, and each way of spoiling brings in one
fault of a known number at a known place, so the right answer is known without a check.
A notice is (day, s, e). A slot is a day and a band in the same form; it has room for one
event. `source` is a seeded random.Random everywhere.
"""

from functools import cache
from itertools import accumulate, combinations, product

from second import notices, winters
from second.notices import MOST_NOTICES, PROFILES

FARTHEST = 2**32 - 1
# Far numbers, and some that turn into a right hour or day when cut to fewer bits.
CUTS = (2**8, 2**16, 2**31)
FAR_DAYS = (2**31, FARTHEST, *(cut + 38 for cut in CUTS))
FAR_HOURS = (2**31, FARTHEST, *(cut + hour for cut in (2**5, *CUTS) for hour in (6, 9)))


# Valid lists.


def flat(listed):
    """A list of notices as the numbers lent to the call."""
    return tuple(number for notice in listed for number in notice)


def notices_in(numbers):
    """The notices of a list of whole triples."""
    return list(zip(numbers[0::3], numbers[1::3], numbers[2::3]))


@cache
def open_days(winter, profile):
    """The days on which a notice may stand."""
    kinds = notices.day_kinds(winter)
    barred = set() if PROFILES[profile].weekends else kinds.weekend
    return sorted(kinds.period - kinds.excluded - barred)


def slots_of(days, profile):
    """Every slot of these days."""
    bands = [(min(band), max(band) + 1) for band in PROFILES[profile].bands]
    return [(day, *band) for day in days for band in bands]


def open_slots(winter, profile):
    return slots_of(open_days(winter, profile), profile)


def room(slot):
    _, first, end = slot
    return end - first


@cache
def allowed_hours(profile):
    """Every s and e of an event."""
    return [
        (s, e)
        for _, first, end in slots_of([0], profile)
        for s, e in combinations(range(first, end + 1), 2)
        if e - s in PROFILES[profile].lengths
    ]


def notice_in(source, slot, length):
    """A notice of this length, anywhere in the slot."""
    day, first, end = slot
    s = source.randint(first, end - length)
    return day, s, s + length


def list_in(source, profile, slots):
    """A notice of any allowed length in each slot, as long as the winter's hours last."""
    listed = []
    left = PROFILES[profile].winter_hours
    for slot in sorted(slots):
        lengths = [n for n in PROFILES[profile].lengths if n <= min(left, room(slot))]
        if not lengths:
            break
        listed.append(notice_in(source, slot, source.choice(sorted(lengths))))
        left -= room(listed[-1])
    return listed


def list_of_hours(source, profile, slots, hours):
    """A notice in each slot, of so many hours together."""
    lengths = [min(PROFILES[profile].lengths)] * len(slots)
    assert sum(lengths) <= hours <= sum(room(slot) for slot in slots)
    while sum(lengths) < hours:
        longer = source.randrange(len(slots))
        if lengths[longer] < room(slots[longer]):
            lengths[longer] += 1
    return [notice_in(source, *pair) for pair in zip(slots, lengths)]


def drawn_slots(source, winter, profile, count, enough_room):
    """So many open slots in order of time. A draw without enough room gives way to one
    from the slots of the widest band."""
    slots = open_slots(winter, profile)
    drawn = sorted(source.sample(slots, count))
    if not enough_room(drawn):
        widest = max(room(slot) for slot in slots)
        drawn = sorted(source.sample([slot for slot in slots if room(slot) == widest], count))
    return drawn


def list_of_count(source, winter, profile, count, hours):
    """So many notices of so many hours together."""
    slots = drawn_slots(
        source, winter, profile, count,
        lambda drawn: sum(room(slot) for slot in drawn) >= hours,
    )
    return list_of_hours(source, profile, slots, hours)


def empty_list(source, winter, profile):
    return []


def one_notice(source, winter, profile):
    return list_in(source, profile, source.sample(open_slots(winter, profile), 1))


def a_few(source, winter, profile):
    count = source.randint(2, 6)
    return list_in(source, profile, source.sample(open_slots(winter, profile), count))


def many(source, winter, profile):
    count = source.randint(7, 40)
    return list_in(source, profile, source.sample(open_slots(winter, profile), count))


def two_events_a_day(source, winter, profile):
    days = source.sample(open_days(winter, profile), source.randint(1, 8))
    return list_in(source, profile, slots_of(days, profile))


def first_and_last_days(source, winter, profile):
    """The first and last day that is open; mostly those of the winter period."""
    days = open_days(winter, profile)
    return list_in(source, profile, slots_of([days[0], days[-1]], profile))


def beside_excluded_days(source, winter, profile):
    excluded = notices.day_kinds(winter).excluded
    beside = {day + step for day in excluded for step in (-1, 1)}
    days = beside.intersection(open_days(winter, profile))
    return list_in(source, profile, slots_of(days, profile))


def at_weekends(source, winter, profile):
    days = notices.day_kinds(winter).weekend.intersection(open_days(winter, profile))
    count = source.randint(1, 12)
    return list_in(source, profile, source.sample(slots_of(sorted(days), profile), count))


def hundred_notices(source, winter, profile):
    """100 notices of one hour: on 100 days, two a day on 50 days, or on any slots."""
    days = open_days(winter, profile)
    slots = source.choice((
        [source.choice(slots_of([day], profile)) for day in source.sample(days, 100)],
        slots_of(source.sample(days, 50), profile),
        source.sample(open_slots(winter, profile), 100),
    ))
    return [notice_in(source, slot, 1) for slot in sorted(slots)]


def hundred_hours(source, winter, profile):
    """Exactly 100 hours, in 25 notices or more."""
    count = source.randint(25, 100 // min(PROFILES[profile].lengths))
    return list_of_count(source, winter, profile, count, 100)


# The shapes of valid lists and the profiles that have them.
SHAPES = (
    (empty_list, (1, 2)),
    (one_notice, (1, 2)),
    (a_few, (1, 2)),
    (many, (1, 2)),
    (two_events_a_day, (1, 2)),
    (first_and_last_days, (1, 2)),
    (beside_excluded_days, (1, 2)),
    (at_weekends, (1,)),
    (hundred_notices, (1,)),
    (hundred_hours, (1, 2)),
)


def every_shape(source):
    """A valid list of every shape for every winter, with its winter and profile."""
    for winter, (shape, profiles) in product(winters.WINTERS, SHAPES):
        for profile in profiles:
            yield winter, profile, shape(source, winter, profile)


# Ways to spoil a valid list. A way takes a place and gives the spoilt list with the number
# and place of its fault, or None if it cannot spoil the list there.


def replaced(listed, place, notice):
    return listed[:place] + [notice] + listed[place + 1:]


def inserted(listed, place, notice):
    """With 100 notices the last one has to go, or the list would be refused as too long."""
    return (listed[:place] + [notice] + listed[place:])[:MOST_NOTICES]


def other_day(number, days):
    """The way that moves a notice to one of these days."""
    def way(source, winter, profile, listed, place):
        others = days(winter, profile)
        if not others or place == len(listed):
            return None
        _, s, e = listed[place]
        return replaced(listed, place, (source.choice(others), s, e)), (number, place)
    return way


def other_hours(number, hours):
    """The way that gives a notice one of these pairs of s and e."""
    def way(source, winter, profile, listed, place):
        others = hours(profile)
        if not others or place == len(listed):
            return None
        day, _, _ = listed[place]
        return replaced(listed, place, (day, *source.choice(others))), (number, place)
    return way


def followed_by(number, followers):
    """The way that puts one of these notices behind the notice they are made for."""
    def way(source, winter, profile, listed, place):
        if place == 0 or place == MOST_NOTICES:
            return None
        others = followers(winter, profile, listed[place - 1])
        if not others:
            return None
        return inserted(listed, place, source.choice(others)), (number, place)
    return way


def days_of_november(winter, profile):
    return range(30)


def days_after_the_winter(winter, profile):
    end = len(winters.book_dates(winter))
    return range(end, end + 3)


def far_days(winter, profile):
    return FAR_DAYS


def excluded_days(winter, profile):
    return sorted(notices.day_kinds(winter).excluded)


def barred_weekends(winter, profile):
    """Days that only the weekend bars, so none under profile 1."""
    kinds = notices.day_kinds(winter)
    return sorted(kinds.period - kinds.excluded - set(open_days(winter, profile)))


def empty_hours(profile):
    return [(hour, hour) for hour in (*range(26), FARTHEST)]


def reversed_hours(profile):
    pairs = [(s, e) for s, e in product(range(26), repeat=2) if s > e]
    return [*pairs, (FARTHEST, 0), (FARTHEST, 9), (2**31, 17)]


@cache
def forward_hours(profile):
    """Every s and e of a day with s below e, and how they lie to the bands: `inside` one,
    `outside` all, or `across`."""
    pairs = {"inside": [], "outside": [], "across": []}
    for s, e in combinations(range(26), 2):
        hours = set(range(s, e))
        if any(hours <= band for band in PROFILES[profile].bands):
            pairs["inside"].append((s, e))
        elif any(hours & band for band in PROFILES[profile].bands):
            pairs["across"].append((s, e))
        else:
            pairs["outside"].append((s, e))
    return pairs


def hours_told(profile, s, e):
    """The number that these hours get by themselves, whatever they are; 0 if none."""
    if e <= s:
        return 13
    bands = PROFILES[profile].bands
    touched = [band for band in bands if any(s <= hour < e for hour in band)]
    if not touched:
        return 26
    if s not in touched[0] or e - 1 not in touched[0]:
        return 27
    return 0 if e - s in PROFILES[profile].lengths else 14


def outside_hours(profile):
    return forward_hours(profile)["outside"]


def across_hours(profile):
    return forward_hours(profile)["across"]


def far_hours(profile):
    """A start behind the last band with a far end, and both far."""
    return [*product((20, 23, 24), FAR_HOURS), *combinations(sorted(FAR_HOURS), 2)]


def far_ends(profile):
    """A start in or before a band, with a far end."""
    return list(product((0, 6, 8, 10, 16, 19), FAR_HOURS))


def hours_of_wrong_length(profile):
    """Hours inside a band, but too few; there are none under profile 1."""
    inside = forward_hours(profile)["inside"]
    return [hours for hours in inside if hours not in allowed_hours(profile)]


def same_notice(winter, profile, notice):
    return [notice]


def on_earlier_day(winter, profile, notice):
    """Later hours of the day as well as earlier ones."""
    earlier = [day for day in open_days(winter, profile) if day < notice[0]]
    return [(day, *hours) for day in earlier for hours in allowed_hours(profile)]


def earlier_same_day(winter, profile, notice):
    """Ended when the notice starts: in the band before, or before it in its own band."""
    day, first, _ = notice
    return [(day, s, e) for s, e in allowed_hours(profile) if e <= first]


def overlapping(winter, profile, notice):
    """Some of the notice's hours again, but not just the same ones."""
    day, first, end = notice
    return [
        (day, s, e)
        for s, e in allowed_hours(profile)
        if s < end and first < e and (s, e) != (first, end)
    ]


def later_same_band(winter, profile, notice):
    """Behind the notice in its band, at once or after a pause; profile 2 has no such."""
    day, first, end = notice
    bands = [(opens, closes) for _, opens, closes in slots_of([day], profile)]
    return [
        (day, s, e)
        for s, e in allowed_hours(profile)
        if end <= s and any(opens <= first and e <= closes for opens, closes in bands)
    ]


def swapped(source, winter, profile, listed, place):
    """A notice changes places with the one before it."""
    if place == 0 or place == len(listed):
        return None
    before, notice = listed[place - 1:place + 1]
    return listed[:place - 1] + [notice, before] + listed[place + 1:], (15, place)


def past_limit(profile, listed):
    """A list with its fault, if its hours pass the winter's limit, else None."""
    for place, total in enumerate(accumulate(room(notice) for notice in listed)):
        if total > PROFILES[profile].winter_hours:
            return listed, (18, place)
    return None


def one_hour_more(source, winter, profile, listed, place):
    """A notice gets one more hour of its band."""
    if place == len(listed):
        return None
    day, s, e = listed[place]
    longer = [hours for hours in ((s, e + 1), (s - 1, e)) if hours in allowed_hours(profile)]
    if not longer:
        return None
    return past_limit(profile, replaced(listed, place, (day, *source.choice(longer))))


def one_notice_more(source, winter, profile, listed, place):
    """A notice comes in, anywhere in the list, where its day and band are free."""
    if len(listed) == MOST_NOTICES:
        return None
    day, first, end = source.choice(open_slots(winter, profile))
    if any(day == on and first <= s < end for on, s, _ in listed):
        return None
    notice = notice_in(source, (day, first, end), min(PROFILES[profile].lengths))
    return past_limit(profile, sorted([*listed, notice]))


# What bars a notice's day, and what is wrong with its hours, by refusal number.
BARRED_DAYS = (
    (10, days_of_november),
    (10, days_after_the_winter),
    (10, far_days),
    (11, excluded_days),
    (12, barred_weekends),
)
WRONG_HOURS = (
    (13, empty_hours),
    (13, reversed_hours),
    (26, outside_hours),
    (26, far_hours),
    (27, across_hours),
    (27, far_ends),
    (14, hours_of_wrong_length),
)

WAYS = (
    *(other_day(number, days) for number, days in BARRED_DAYS),
    *(other_hours(number, hours) for number, hours in WRONG_HOURS),
    followed_by(15, same_notice),
    followed_by(15, on_earlier_day),
    followed_by(15, earlier_same_day),
    followed_by(15, overlapping),
    swapped,
    followed_by(16, later_same_band),
    one_hour_more,
    one_notice_more,
)


def spoil(source, winter, profile, listed, way):
    """The list spoilt in this way at a random place, None if no place will do."""
    places = source.sample(range(len(listed) + 1), len(listed) + 1)
    tries = (way(source, winter, profile, listed, place) for place in places)
    return next(filter(None, tries), None)
