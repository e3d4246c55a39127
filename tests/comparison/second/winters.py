"""The second program's calendar: the winters of docs/RULES.md, told by Python's own dates.

A winter's book is the list of its dates, a day is a place in that list, and
weekdays are those of `datetime`. Each call gives a pair: the refusal number
(0 if none) and the values. Where the specification leaves something open, a comment
names the entry of docs/DECISIONS.md that settles it.
"""

from datetime import date, timedelta
from functools import cache

from second import clocks
from second.clocks import SUNDAY

WINTERS = range(2010, 2099)
EASTER_YEARS = range(2011, 2100)

WRONG_WINTER = 1
WRONG_DAY = 10

SATURDAY = 6
ONE_DAY = timedelta(1)

# The Paschal full moon (month, day) by golden number, 1 to 19, as church calendars
# print it for 1900 to 2199. A table on purpose: rule 1.13 has a formula, and the
# second program is to reach the same Easter by another way.
PASCHAL_FULL_MOONS = (
    (4, 14), (4, 3), (3, 23), (4, 11), (3, 31), (4, 18), (4, 8), (3, 28), (4, 16), (4, 5),
    (3, 25), (4, 13), (4, 2), (3, 22), (4, 10), (3, 30), (4, 17), (4, 7), (3, 27),
)

# The book has a number for each hour that a clock can show, whatever hours its date has.
HOURS = len(clocks.BY_THE_CLOCK)
LONGEST_BOOK = 3648


@cache
def book_dates(winter):
    """The dates of a book, the first and the last of November to March among them."""
    first = date(winter, 11, 1)
    last = date(winter + 1, 3, 31)
    return [first + timedelta(day) for day in range((last - first).days + 1)]


def easter_sunday(year):
    """The first Sunday after the Paschal full moon."""
    month, day = PASCHAL_FULL_MOONS[year % 19]
    on = date(year, month, day) + ONE_DAY
    while on.isoweekday() != SUNDAY:
        on += ONE_DAY
    return on


@cache
def excluded_dates(winter):
    """Christmas Eve and the two days behind it, New Year's Eve and the two days behind it, Good
    Friday and Easter Monday: those of the eight that the book has."""
    easter_day = easter_sunday(winter + 1)
    dates = {
        date(winter, 12, 24),
        date(winter, 12, 25),
        date(winter, 12, 26),
        date(winter, 12, 31),
        date(winter + 1, 1, 1),
        date(winter + 1, 1, 2),
        easter_day - 2 * ONE_DAY,
        easter_day + ONE_DAY,
    }
    return dates.intersection(book_dates(winter))


def is_weekend(on):
    """Whether a date is a Saturday or a Sunday: rule 1.9."""
    return on.isoweekday() in (SATURDAY, SUNDAY)


def days(winter):
    """N, the days of a winter's book: as many as there are dates in it."""
    if winter not in WINTERS:
        return WRONG_WINTER, ()
    return 0, (len(book_dates(winter)),)


def easter(year):
    """Month and day of a year's Easter Sunday; 1 where no winter ends in that year."""
    if year not in EASTER_YEARS:
        return WRONG_WINTER, ()
    on = easter_sunday(year)
    return 0, (on.month, on.day)


def day_of_sunday(winter, tell):
    """The book day of the Sunday that `tell` names; 1 where there is no such winter."""
    if winter not in WINTERS:
        return WRONG_WINTER, ()
    return 0, (book_dates(winter).index(tell()),)


def forward(winter):
    """The Sunday the clocks go forward, which is in the winter's later year: rule 1.19."""
    return day_of_sunday(winter, lambda: clocks.goes_forward(winter + 1))


def back(winter):
    """The Sunday the clocks go back, which is in its earlier one: rule 1.19."""
    return day_of_sunday(winter, lambda: clocks.goes_back(winter))


def told_of_day(winter, day, tell):
    """What `tell` says of the day's date; 1 where there is no such winter, and if there is
    one, 10 where its book has no such day."""
    if winter not in WINTERS:
        return WRONG_WINTER, ()
    if day >= len(book_dates(winter)):
        return WRONG_DAY, ()
    return 0, tell(book_dates(winter)[day])


def weekday(winter, day):
    """0 for Sunday to 6 for Saturday. The specification has the names of weekdays and no numbers:
    these are a choice of ours, "The numbers of weekdays"."""
    return told_of_day(winter, day, lambda on: (on.isoweekday() % 7,))


def kind(winter, day):
    """Whether a day is in the winter period, from 1 December on, a Saturday or a Sunday, and one
    of the excluded days. That one call tells all three is a choice of ours: "One question on a
    day"."""
    return told_of_day(winter, day, lambda on: (
        int(on >= date(winter, 12, 1)),
        int(is_weekend(on)),
        int(on in excluded_dates(winter)),
    ))


def date_of_day(winter, day):
    """Month and day of the month."""
    return told_of_day(winter, day, lambda on: (on.month, on.day))


def book_day(winter, month, day_of_month):
    """The book day of a date. The specification has no such call. That a date which the book has not
    gets 10, after 1 for the winter, is a choice of ours: "A date that the book has not"."""
    if winter not in WINTERS:
        return WRONG_WINTER, ()
    for day, on in enumerate(book_dates(winter)):
        if (on.month, on.day) == (month, day_of_month):
            return 0, (day,)
    return WRONG_DAY, ()


def readings(winter, lent, day):
    """A day's part of a lent book: its 24 readings, and nothing where there is no such
    winter, no such day, or the book is not that winter's."""
    if winter not in WINTERS or day >= len(book_dates(winter)):
        return lent[:0]
    if len(lent) != HOURS * len(book_dates(winter)):
        return lent[:0]
    return lent[HOURS * day:HOURS * (day + 1)]


def joined(numbers):
    """Numbers as they are printed, with commas between them."""
    return ",".join(str(number) for number in numbers)


def numbered(answer):
    """A pair as it is printed: the number, then the values."""
    number, values = answer
    return joined((number, *values))


def printed_part(part):
    """The length of a part of the book, then its first and last reading, if any."""
    return joined((len(part), part[0], part[-1])) if part else "0"


def line(w, a, b):
    """The whole answer to one query."""
    # A range is a book whose number at index i is i.
    lent = range(min(b, LONGEST_BOOK))
    fields = {
        "days": numbered(days(w)),
        "easter": numbered(easter(w)),
        "forward": numbered(forward(w)),
        "back": numbered(back(w)),
        "weekday": numbered(weekday(w, a)),
        "kind": numbered(kind(w, a)),
        "date": numbered(date_of_day(w, a)),
        "book_day": numbered(book_day(w, a, b)),
        "readings": printed_part(readings(w, lent, a)),
    }
    answers = " ".join(f"{call}={answer}" for call, answer in fields.items())
    return f"{w},{a},{b} {answers}"
