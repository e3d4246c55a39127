"""The second program's clocks: the hours of a date, in the order in which they go by.

Most dates have the hours 0 to 23. On the Sunday the clocks go forward one is left out (rule 1.20).
On the Sunday they go back one comes twice, of which the rules need not speak: no accepted list
needs a reading of that day. How far apart two hours of a date are is told by their places in that
order, not by the numbers that the clock shows (rule 1.21).
"""

from datetime import date, timedelta
from functools import cache

MARCH, NOVEMBER = 3, 11
SUNDAY = 7
WEEK = 7

BY_THE_CLOCK = tuple(range(24))

# What the clock would show when it is changed.
CHANGED_AT = 2


def sunday(year, month, which):
    """The first Sunday of a month, the second, ..: the last one of that many weeks."""
    dates = (date(year, month, 1) + timedelta(days) for days in range(WEEK * which))
    return [on for on in dates if on.isoweekday() == SUNDAY][-1]


@cache
def goes_forward(year):
    """The Sunday of a year on which the clocks go forward."""
    return sunday(year, MARCH, 2)


@cache
def goes_back(year):
    """The Sunday of a year on which the clocks go back."""
    return sunday(year, NOVEMBER, 1)


@cache
def hours_of(on):
    """The hours of a date as they follow one another. Where the clocks go forward, hour 3 follows
    hour 1. Where they go back, hour 1 follows itself."""
    before, after = BY_THE_CLOCK[:CHANGED_AT], BY_THE_CLOCK[CHANGED_AT:]
    if on == goes_forward(on.year):
        return before + after[1:]
    if on == goes_back(on.year):
        return before + before[-1:] + after
    return before + after


def earlier(on, hour, elapsed):
    """The hour of a date that begins so many elapsed hours before another one of it does."""
    hours = hours_of(on)
    return hours[hours.index(hour) - elapsed]


def has_hours(on, hours):
    """Whether a date has each of these hours."""
    return all(hour in hours_of(on) for hour in hours)
