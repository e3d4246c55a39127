"""Compares the calendar with the second program, query by query.

Both are asked the same queries and must print the same lines.
The last line printed is "N passed, M failed".
"""

import random
from collections import Counter
from datetime import date
from functools import partial
from itertools import product

import reach
from cases.checks import Case, check_built, check_every, check_group, check_share
from cases.layers import both_of_days, fields
from common.harness import Failure, run_tests
from second import winters

# What each call can give as its first number. The readings start with their length.
POSSIBLE = {
    "days": ("0", "1"),
    "easter": ("0", "1"),
    "forward": ("0", "1"),
    "back": ("0", "1"),
    "weekday": ("0", "1", "10"),
    "kind": ("0", "1", "10"),
    "date": ("0", "1", "10"),
    "book_day": ("0", "1", "10"),
    "readings": ("0", "24"),
}

# What calls say to a year that is no winter, to a day that the book has not, and to such a date.
NO_WINTER = {
    "days": "1", "forward": "1", "back": "1", "weekday": "1", "kind": "1", "date": "1",
    "book_day": "1", "readings": "0",
}
NO_DAY = {"weekday": "10", "kind": "10", "date": "10", "readings": "0"}
NO_DATE = {"book_day": "10"}

# The days of November and of March on which clocks in America were changed, or are to be, from
# the winter 2010 on. Published, so neither program's.
CHANGED = (
    (7, 13), (6, 11), (4, 10), (3, 9), (2, 8), (1, 13), (6, 12), (5, 11), (4, 10), (3, 8),
    (1, 14), (7, 13), (6, 12), (5, 10), (3, 9), (2, 8), (1, 14),
)

# Queries that are mostly refused would compare little: this share of all of them
# must be about a real day of a real winter.
LEAST_ACCEPTED_PERCENT = 60

SEED = 2026
RANDOM_QUERIES = 20_000


# The groups of queries.


def every_day():
    """With the right book length, so that the readings of every day are compared too."""
    return [
        (w, day, 24 * len(winters.book_dates(w))) for w in winters.WINTERS for day in range(154)
    ]


def every_date():
    return list(product(winters.WINTERS, range(14), range(33)))


def book_lengths():
    queries = []
    for w in winters.WINTERS:
        n = len(winters.book_dates(w))
        lengths = (24 * n, 24 * n - 1, 24 * n + 1, 0, 24, 3624, 3648, 24 * n - 24)
        queries += product([w], (0, n // 2, n - 1, n), lengths)
    return queries


def years_outside():
    """Years outside and just inside the limits, with days and dates of both kinds."""
    years = (
        0, 1, 1900, 2000, 2008, 2009, 2010, 2011, 2097, 2098, 2099, 2100, 2101, 2400,
        65535, 4294967294, 4294967295,
    )
    days = (0, 29, 30, 53, 145, 150, 151, 152, 4294967295)
    lengths = (0, 3624, 3648)
    dates = (
        (11, 1), (12, 24), (1, 2), (2, 28), (2, 29), (3, 31),
        (10, 31), (4, 1), (2, 30), (7, 1), (0, 1), (12, 0), (13, 1),
    )
    arguments = (*product(days, lengths), *dates)
    return [(year, a, b) for year, (a, b) in product(years, arguments)]


def extreme_numbers():
    """Every number in every place. Besides the ends of ranges: numbers that turn into a
    winter or a date when cut to 8 or 16 bits, and days whose 24-fold is at or just past
    the end of 32 bits."""
    numbers = (
        0, 1, 12, 31, 150, 151, 152, 2010, 2026, 2098, 3624, 3648,
        256 + 12, 65535, 65536, 65536 + 12, 65536 + 2026, 178956970, 178956971,
        2147483647, 2147483648, 4294967294, 4294967295,
    )
    return list(product(numbers, repeat=3))


def random_queries():
    """Mostly plausible numbers; one in ten is any number of 32 bits."""
    source = random.Random(SEED)

    def number(*plausible):
        if source.randrange(10) == 0:
            return source.randrange(2**32)
        return source.choice(source.choice(plausible))

    return [
        (
            number(range(2005, 2105)),
            number(range(160), range(14)),
            number(range(33), (3624, 3648), range(3620, 3652)),
        )
        for _ in range(RANDOM_QUERIES)
    ]


def days_outside():
    """Days behind the last one of every winter's book, with a book of the right length. Some
    turn into a day of the book when cut to 8, 16 or 31 bits."""
    cases = []
    for w in winters.WINTERS:
        n = len(winters.book_dates(w))
        far = (365, 366, *(2**bits + n - 1 for bits in (8, 16, 31)), 2**32 - 1)
        cases += [Case((w, day, 24 * n), NO_DAY) for day in (*range(n, n + 40), *far)]
    return cases


def dates_outside():
    """The months that no book has, days that a month has not, the leap day where there is none,
    and months that no year has."""
    cut = (2**8, 2**16, 2**31)
    never = (
        *product(range(4, 11), range(33)),
        (11, 31), (2, 30), (2, 31), *product((11, 12, 1, 2, 3), (0, 32)),
        (0, 1), (13, 1), (2**32 - 1, 1), (12, 2**32 - 1),
        *((one + 12, 1) for one in cut), *((12, one + 1) for one in cut),
    )
    common = [w for w in winters.WINTERS if len(winters.book_dates(w)) == 151]
    queries = [(w, *on) for w in (2010, 2026, 2027, 2098) for on in never]
    return [Case(query, NO_DATE) for query in (*queries, *((w, 2, 29) for w in common))]


def winters_outside():
    """Years that are no winter, with days and dates that a book has, and others: 1 comes first.
    2099 alone of them ends a winter, and so has an Easter."""
    years = (*range(1990, 2010), *range(2099, 2121), 0, 1, 2**16 + 2026, 2**31 + 2026, 2**32 - 1)
    asked = ((0, 3624), (30, 3648), (150, 3624), (12, 1), (11, 31), (152, 3624), (2**32 - 1, 0))
    return [
        Case((year, *one), NO_WINTER | {"easter": "0,4,12" if year == 2099 else "1"})
        for year, one in product(years, asked)
    ]


def changed_clocks():
    """The winters whose Sundays were published, with these as days since 1 November."""
    cases = []
    for w, (november, march) in enumerate(CHANGED, start=winters.WINTERS[0]):
        first = date(w, 11, 1)
        back, forward = (on - first for on in (date(w, 11, november), date(w + 1, 3, march)))
        cases.append(Case((w, 0, 0), {"forward": f"0,{forward.days}", "back": f"0,{back.days}"}))
    return cases


KNOWN = (
    ("days behind the book", days_outside),
    ("dates that the book has not", dates_outside),
    ("years that are no winter", winters_outside),
    ("the Sundays of the clocks as published, 17 winters", changed_clocks),
)

GROUPS = (
    ("every day of every winter", every_day),
    ("every date of every winter", every_date),
    ("right and wrong book lengths", book_lengths),
    ("years outside", years_outside),
    ("extreme numbers", extreme_numbers),
    ("random queries", random_queries),
)


# The tests.


def check_queries(make, answered):
    """The queries of a group get the same lines; none of them is built for one."""
    check_group(lambda: [Case(query) for query in make()], both_of_days, answered)


def told_known(case, line):
    """What a line says in the fields that its query was built for."""
    said = fields(line)
    return {call: said.get(call) for call in case.built_for}


def check_known(make):
    """Both programs say what was known beforehand."""
    answered = []
    check_group(make, both_of_days, answered)
    check_built(told_known, answered)


def check_every_number(answered):
    """Each call gave each of its possible numbers at least once, and no other."""
    tally = Counter(
        (call, answer.partition(",")[0])
        for _, line in answered
        for call, answer in fields(line).items()
    )
    check_every(tally, POSSIBLE)


def check_accepted(answered):
    """Enough queries were about a real day."""
    accepted = sum(fields(line).get("weekday", "").startswith("0,") for _, line in answered)
    check_share(accepted, len(answered), LEAST_ACCEPTED_PERCENT, "weekday answered with number 0")


def formula_easter(y):
    """Easter Sunday by the formula of rule 1.13, letter by letter."""
    a, b, c = y % 19, y // 100, y % 100
    d, e = b // 4, b % 4
    f = (b + 8) // 25
    g = (b - f + 1) // 3
    h = (19 * a + b - d - g + 15) % 30
    i, k = c // 4, c % 4
    l = (32 + 2 * e + 2 * i - h - k) % 7
    m = (a + 11 * h + 22 * l) // 451
    t = h + l - 7 * m + 114
    return date(y, t // 31, t % 31 + 1)


def check_second_easter():
    """The second program's table of full moons agrees with the formula of rule 1.13."""
    wrong = [y for y in winters.EASTER_YEARS if winters.easter_sunday(y) != formula_easter(y)]
    if wrong:
        raise Failure(f"the second program's Easter is another one in {wrong}")


def check_sundays():
    """In every winter the library's own weekday and date of its two days are right: a Sunday, the
    one that is 8 to 14 March, and the one that is 1 to 7 November."""
    asked, _ = both_of_days([(w, 0, 0) for w in winters.WINTERS])
    for call, month, of_month in (("forward", 3, range(8, 15)), ("back", 11, range(1, 8))):
        days = [fields(line)[call].removeprefix("0,") for line in asked]
        said, _ = both_of_days([(w, int(day), 0) for w, day in zip(winters.WINTERS, days)])
        right = [{"weekday": "0,0", "date": f"0,{month},{on}"} for on in of_month]
        for line in said:
            if not any(one.items() <= fields(line).items() for one in right):
                raise Failure(f"the Sunday of {call}: {line}")


def all_tests():
    """Every test, as its name and a check that raises Failure."""
    answered = []
    return [
        ("second program's Easter by the formula", check_second_easter),
        *((name, partial(check_queries, make, answered)) for name, make in GROUPS),
        *((name, partial(check_known, make)) for name, make in KNOWN),
        ("the Sundays of the clocks by the library's own dates", check_sundays),
        ("every possible number was given", partial(check_every_number, answered)),
        ("enough queries were accepted", partial(check_accepted, answered)),
    ]


if __name__ == "__main__":
    run_tests(all_tests())
