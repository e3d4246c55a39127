"""The figures of docs/RULES.md, and what is asked for each: of the layers, from C, and as a text.

A figure on a layer is a name, a query and the answer. Where it takes several queries, or all
that a settlement says, it is a name and cases, each built for number and place, and for its
totals, where it has any, and lines where the call is accepted.
"""

from itertools import product

from cases.calls import LINE_BYTES, Check, Power, Settle
from cases.checks import ACCEPTED, Case
from cases.event_books import bare_query, stepped_book, with_readings
from cases.layers import ListQuery, number_and_place
from cases.notice_lists import flat, notices_in, open_days
from cases.settlement_books import Saving, even_book, level_book, packed, warm_up_places
from second import winters
from second.energies import MISSING, place_of
from second.notices import PROFILES
from second.settlements import OUTPUT_BYTES

# Of the calendar: what one call must say to the query.
DAY_FIGURES = (
    ("Easter 2024 is 31 March", (2024, 0, 0), "easter=0,3,31"),
    ("Easter 2027 is 28 March", (2027, 0, 0), "easter=0,3,28"),
    ("Easter 2028 is 16 April", (2028, 0, 0), "easter=0,4,16"),
    ("1 December is day 30", (2026, 12, 1), "book_day=0,30"),
    ("day 30 is 1 December", (2026, 30, 0), "date=0,12,1"),
    ("1 November is day 0", (2026, 11, 1), "book_day=0,0"),
    ("1 November 2026 is a Sunday", (2026, 0, 0), "weekday=0,0"),
    ("winter 2026: the clocks go back on day 0", (2026, 0, 0), "back=0,0"),
    ("winter 2026: the clocks go forward on day 133", (2026, 0, 0), "forward=0,133"),
)

# A winter, and the days that it excludes besides the six fixed ones.
FIXED_DAYS = {53, 54, 55, 60, 61, 62}
EASTER_DAYS = (
    ("winter 2026: Easter takes out days 145 and 148", 2026, (145, 148)),
    ("winter 2023: Easter takes out day 149", 2023, (149,)),
    ("winter 2027: Easter takes out no day", 2027, ()),
)
JANUARY_3 = 63

# Of lists: the line that the query must get. Day 38 of winter 2026 is a Wednesday.
LIST_FIGURES = (
    ("profile 1: 6-10 stands", ListQuery(2026, 1, (38, 6, 10)), "0,0 masks=38:960 events=6+4"),
    ("profile 1: 6-11 is 27", ListQuery(2026, 1, (38, 6, 11)), "27,0"),
    ("profile 1: 9-17 is 27", ListQuery(2026, 1, (38, 9, 17)), "27,0"),
    ("profile 1: 9-6 is 13", ListQuery(2026, 1, (38, 9, 6)), "13,0"),
    ("profile 1: 10-16 is 26", ListQuery(2026, 1, (38, 10, 16)), "26,0"),
    ("profile 1: 20-30 is 26", ListQuery(2026, 1, (38, 20, 30)), "26,0"),
    ("profile 1: 19-30 is 27", ListQuery(2026, 1, (38, 19, 30)), "27,0"),
    ("profile 1: 24-24 is 13", ListQuery(2026, 1, (38, 24, 24)), "13,0"),
    ("profile 1: 24-25 is 26", ListQuery(2026, 1, (38, 24, 25)), "26,0"),
    ("profile 1: 0-4294967295 is 27", ListQuery(2026, 1, (38, 0, 4294967295)), "27,0"),
    ("profile 1: the same notice twice is 15", ListQuery(2026, 1, (38, 6, 9, 38, 6, 9)), "15,1"),
    ("profile 1: 6-7 then 8-9 is 16", ListQuery(2026, 1, (38, 6, 7, 38, 8, 9)), "16,1"),
    ("profile 2: 6-8 is 14", ListQuery(2026, 2, (38, 6, 8)), "14,0"),
    ("profile 2: 9-10 is 26", ListQuery(2026, 2, (38, 9, 10)), "26,0"),
    ("profile 1: the empty list is accepted", ListQuery(2026, 1, ()), "0,0 masks= events="),
    ("profile 2: the empty list is accepted", ListQuery(2026, 2, ()), "0,0 masks= events="),
    (
        "bit h for hour h: a day's mask has both its events",
        ListQuery(2026, 2, (38, 6, 9, 38, 16, 20)),
        "0,0 masks=38:983488 events=6+3,16+4",
    ),
)


def easter_lists(winter, easter_days):
    """A notice of an hour on every day from 3 January on: the days that Easter excludes are
    refused one after the other, and without them the list stands."""
    days = list(range(JANUARY_3, len(winters.book_dates(winter))))
    cases = []
    for day in easter_days:
        listed = flat((on, 6, 7) for on in days)
        cases.append(Case(ListQuery(winter, 1, listed), (11, days.index(day))))
        days.remove(day)
    return [*cases, Case(ListQuery(winter, 1, flat((on, 6, 7) for on in days)), ACCEPTED)]


def hundred_hour_lists(profile):
    """97 hours and 3 stand; with one hour more in the last notice, or with the shortest
    notice possible behind it, they do not."""
    # Open under profile 2, so under both.
    days = open_days(2026, 2)
    before = [(day, 6, 9) for day in days[:3]] + [(day, 16, 20) for day in days[3:25]]
    last, next_day = days[25:27]
    stands = [*before, (last, 17, 20)]
    one_hour_more = [*before, (last, 16, 20)]
    one_notice_more = [*stands, (next_day, 16, 16 + min(PROFILES[profile].lengths))]
    return [
        Case(ListQuery(2026, profile, flat(stands)), ACCEPTED),
        Case(ListQuery(2026, profile, flat(one_hour_more)), (18, 25)),
        Case(ListQuery(2026, profile, flat(one_notice_more)), (18, 26)),
    ]


# Figures that take several lists, the first of the hundred hours one that stands.
EASTER_LISTS = tuple((name, easter_lists(*days)) for name, *days in EASTER_DAYS)
HUNDRED_HOURS = tuple(
    (f"profile {profile}: 100 hours stand; one more is 18", hundred_hour_lists(profile))
    for profile in PROFILES
)
ALL_LISTS = (
    *((name, [Case(query, number_and_place(line))]) for name, query, line in LIST_FIGURES),
    *EASTER_LISTS,
    *HUNDRED_HOURS,
)


# Of events.

# The sample's readings by day: those of its warm-up hours, then those of its event hours.
SAMPLE_READINGS = {
    31: (2000, 2000), 32: (2100, 2100), 33: (2200, 2200), 36: (2300, 2300), 37: (2400, 2400),
    38: (2500, 1000),
}

# Hours of an event by its start, the warm-up hours first, as they are on every day but one.
MORNING_6, MORNING_7, MORNING_8, MORNING_9, EVENING_16 = (
    ((1, 2, 3), (6, 9)), ((2, 3, 4), (7, 10)), ((3, 4, 5), (8, 10)), ((4, 5, 6), (9, 10)),
    ((12, 13), (16, 19)),
)

# A list, the day of an event, its hours and its reference days.
REFERENCES = (
    (
        "winter 2026, a notice on day 34: reference 28, 27, 21, 20, 14",
        (), 34, MORNING_6, (28, 27, 21, 20, 14),
    ),
    (
        "winter 2026, day 57: reference 52, 51, 50, 47, 46",
        (), 57, MORNING_6, (52, 51, 50, 47, 46),
    ),
    (
        "winter 2026, day 57 with an event on 51: reference 52, 50, 47, 46, 45",
        (51, 16, 17), 57, MORNING_6, (52, 50, 47, 46, 45),
    ),
    (
        "winter 2026, day 139 at 6: reference 132, 126, 125, 119, 118",
        (), 139, MORNING_6, (132, 126, 125, 119, 118),
    ),
    (
        "winter 2026, day 139 at 7: reference 132, 126, 125, 119, 118",
        (), 139, MORNING_7, (132, 126, 125, 119, 118),
    ),
    (
        "winter 2026, day 139 at 8: reference 133, 132, 126, 125, 119",
        (), 139, MORNING_8, (133, 132, 126, 125, 119),
    ),
    (
        "winter 2026, day 139 at 16: reference 133, 132, 126, 125, 119",
        (), 139, EVENING_16, (133, 132, 126, 125, 119),
    ),
)

# The Sunday the clocks go forward: the hours of an event there.
CLOCK_SUNDAY = 133
SUNDAY_HOURS = (
    ("winter 2026, day 133 at 6: warm-up 0, 1, 3", ((0, 1, 3), (6, 9))),
    ("winter 2026, day 133 at 7: warm-up 1, 3, 4", ((1, 3, 4), (7, 10))),
    ("winter 2026, day 133 at 8: warm-up 3, 4, 5", MORNING_8),
    ("winter 2026, day 133 at 9: warm-up 4, 5, 6", MORNING_9),
    ("winter 2026, day 133 at 16: warm-up 12, 13", EVENING_16),
)

# Around the limit: C, and the energy that it gives.
LIMIT_FIGURES = (
    (
        "H = W = 3, R = 126,000, B = 9,000, A = 12,000: C = 11,000 gives 720,000",
        11_000, 720_000,
    ),
    (
        "H = W = 3, R = 126,000, B = 9,000, A = 12,000: C = 10,999 gives 666,018, less for less",
        10_999, 666_018,
    ),
)


def sample_query():
    """The sample's event, its list and its readings."""
    readings = {
        (day, hour): reading
        for day, both in SAMPLE_READINGS.items()
        for hours, reading in zip(((1, 2, 3), (6, 7, 8)), both)
        for hour in hours
    }
    return with_readings(bare_query(2026, (38, 6, 9), 38, (6, 9)), readings)


def limit_query(c):
    """The event of the sample, with R = 126,000, B = 9,000 and A = 12,000: at each hour the
    middle three of five readings come to 42,000 and 3,000. The smallest and the largest are
    on other days at each hour."""
    warm_up = (200, 990, 1000, 1010, 7000)
    event = (0, 13_900, 14_000, 14_100, 90_000)
    readings = {}
    for turn, hour in enumerate((1, 2, 3)):
        readings |= {(38, hour): 4000, (38, hour + 5): (4000, 4000, c - 8000)[turn]}
        for place, day in enumerate((37, 36, 33, 32, 31)):
            readings[day, hour] = warm_up[(place + turn) % 5]
            readings[day, hour + 5] = event[(place - 2 * turn) % 5]
    return with_readings(bare_query(2026, (38, 6, 9), 38, (6, 9)), readings)


EVENT_FIGURES = (
    *(
        (f"{start}-{end} is {number}", sample_query()._replace(start=start, end=end), number)
        for start, end, number in ((9, 6, "13"), (20, 30, "26"), (19, 30, "27"))
    ),
    ("the sample: energy 81000", sample_query(), "0,0,0,81000"),
    *((name, limit_query(c), f"0,0,0,{energy}") for name, c, energy in LIMIT_FIGURES),
)


# Called from C.


def figure_case(listed, book, price, *lines):
    """A settlement in winter 2026 that is accepted, with these lines."""
    query = Settle(2026, packed(book), price, packed(flat(listed)), LINE_BYTES * len(listed))
    return Case(query, (*ACCEPTED, *lines))


def savings_case(listed, below, price, *lines):
    """A figure with a level book, from which the events save so many Wh each."""
    book = level_book(2026, listed, [Saving(one) for one in below])
    return figure_case(listed, book, price, *lines)


def limit_case(c, energy):
    """A figure around the limit; at 18,000 an energy of 1,000 is worth a cent."""
    line = (0, 0, energy, energy // 1_000)
    return figure_case([(38, 6, 9)], stepped_book(limit_query(c)), 18_000, line)


def unread_line(winter, notice):
    """The line of an event without readings: its first warm-up hour is missing."""
    return 21, warm_up_places(winter, notice)[0], 0, 0


def reference_cases(numbers, day, hours, references):
    """One reference day after the other: where the event day and the nearest of them have
    readings, and no other day, the next one's first needed reading is missing; with all five
    the event is settled, and so no other day is needed. An event before it lacks its own."""
    warm_up, (start, end) = hours
    listed = [*notices_in(numbers), (day, start, end)]
    before = [unread_line(2026, notice) for notice in listed[:-1]]
    # T is 3,000 and C is 0, so D is 0 and 6R is left: 18,000 an hour, at 50,000 worth 50 cents.
    settled = (0, 0, 18_000 * (end - start), 50 * (end - start))
    last = [*((21, place_of(on, warm_up[0]), 0, 0) for on in references), settled]
    cases = []
    for count, line in enumerate(last):
        book = even_book(2026, MISSING)
        for on, hour in product((day, *references[:count]), (*warm_up, *range(start, end))):
            book[place_of(on, hour)] = 0 if on == day and hour >= start else 1_000
        cases.append(figure_case(listed, book, 50_000, *before, line))
    return cases


def check_of(case):
    """The list check from C on a list."""
    winter, profile, numbers = case.query
    return Case(Check(winter, profile, packed(numbers)), case.built_for)


def settlement_of(case):
    """The settlement of a list, in a book without readings and with room to spare."""
    winter, _, numbers = case.query
    listed = notices_in(numbers)
    book = packed(even_book(winter, MISSING))
    query = Settle(winter, book, 50_000, packed(numbers), LINE_BYTES * (len(listed) + 2))
    accepted = listed if case.built_for == ACCEPTED else ()
    return Case(query, (*case.built_for, *(unread_line(winter, notice) for notice in accepted)))


# 10 Wh are an energy of 180, and 7,140 Wh one of 128,520.
SETTLEMENT_FIGURES = (
    (
        "the sample: energy 81000, 234 cents",
        [figure_case([(38, 6, 9)], stepped_book(sample_query()), 51_967, (0, 0, 81_000, 234))],
    ),
    *((name, reference_cases(*figure)) for name, *figure in REFERENCES),
    *((name, [limit_case(c, energy)]) for name, c, energy in LIMIT_FIGURES),
    (
        "three lines of 180 at 50,000: cents 1, 0, 1",
        [savings_case(
            [(38, 6, 9), (38, 16, 20), (39, 7, 8)], (10, 10, 10), 50_000,
            (0, 0, 180, 1), (0, 0, 180, 0), (0, 0, 180, 1),
        )],
    ),
    (
        "energy 128,520 at 50,000: 357",
        [savings_case([(38, 6, 9)], (7_140,), 50_000, (0, 0, 128_520, 357))],
    ),
    *(
        (name, [settlement_of(case) for case in cases])
        for name, cases in ALL_LISTS
        if cases[0].query.profile == 1
    ),
)


def power_case(watts, cents, notice, reading):
    """One event that draws so many Wh at each of its hours, with a reference that is so many W
    above. No other reading is there, and the output has a number more than the line."""
    day, first, end = notice
    book = even_book(2026, MISSING)
    book[place_of(day, first):place_of(day, end)] = [reading] * (end - first)
    references = packed([reading + watts])
    query = Power(2026, packed(book), packed(notice), references, LINE_BYTES + OUTPUT_BYTES)
    line = (0, 0, watts * (end - first), 12 * watts)
    return Case(query, (*ACCEPTED, 12 * watts, 1, cents, line))


# Rules 11.6, 11.9 and 11.10. One event has the effective power of its reduction.
POWER_FIGURES = (
    (
        "medium power, the sample's event by 2,500 W: 4,500 Wh and 18,000 twelfths of a W",
        [power_case(1_500, 0, (38, 6, 9), 1_000)],
    ),
    *(
        (
            f"one event with {kw} kW: {cents:,} cents",
            [
                power_case(1_000 * kw, cents, (38, 6, 9), 0),
                power_case(1_000 * kw, cents, (38, 16, 20), 7_777),
            ],
        )
        for kw, cents in ((14, 0), (15, 100_035), (199, 1_327_131), (200, 1_231_200))
    ),
    (
        "medium power, the empty list: accepted, all totals 0",
        [Case(Power(2026, packed(even_book(2026, MISSING)), b"", b"", 0), (*ACCEPTED, 0, 0, 0))],
    ),
)
CHECK_FIGURES = tuple((name, [check_of(case) for case in cases]) for name, cases in ALL_LISTS)
