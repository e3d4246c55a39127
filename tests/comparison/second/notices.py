"""The second program's list check: the notices of docs/RULES.md, told by sets of hours.

A band is a set of hours, the event hours of a list are a set of pairs (day, hour), and a
rule is a refusal number with a test.
"""

from dataclasses import dataclass, field
from datetime import date, datetime, time, timedelta
from functools import cache
from typing import NamedTuple

from second import winters

MOST_NOTICES = 100


@dataclass(frozen=True)
class Profile:
    """The figures of a profile: rules 3.1, 3.2, 3.3 and 3.4."""
    bands: tuple
    weekends: bool
    lengths: frozenset
    winter_hours: int


PROFILES = {
    1: Profile(
        bands=(frozenset({6, 7, 8, 9}), frozenset({16, 17, 18, 19})),
        weekends=True,
        lengths=frozenset({1, 2, 3, 4}),
        winter_hours=100,
    ),
    2: Profile(
        bands=(frozenset({6, 7, 8}), frozenset({16, 17, 18, 19})),
        weekends=False,
        lengths=frozenset({3, 4}),
        winter_hours=100,
    ),
}


class DayKinds(NamedTuple):
    """Three sets of the days of a winter."""
    period: set
    weekend: set
    excluded: set


@cache
def day_kinds(winter):
    """The days of the winter period, from 1 December to the book's end, those of weekends and
    the excluded ones."""
    days = list(enumerate(winters.book_dates(winter)))
    return DayKinds(
        period={day for day, on in days if on >= date(winter, 12, 1)},
        weekend={day for day, on in days if winters.is_weekend(on)},
        excluded={day for day, on in days if on in winters.excluded_dates(winter)},
    )


class Notice(NamedTuple):
    """A notice: a day, its first hour, and the hour at which it ends."""
    day: int
    first: int
    end: int

    def hours(self):
        """Its hours; the end is none of them. A range and no set, because the end may be any
        number of 32 bits."""
        return range(self.first, self.end)


@dataclass
class Standing:
    """The notices that stand so far in a list, and their hours as pairs (day, hour)."""
    winter: int
    profile: Profile
    notices: list = field(default_factory=list)
    hours: set = field(default_factory=set)

    def add(self, notice):
        self.notices.append(notice)
        self.hours |= day_hours(notice)


def day_hours(notice):
    """A notice's hours as pairs (day, hour)."""
    return {(notice.day, hour) for hour in notice.hours()}


def band_of(profile, notice):
    """The one band that has all the notice's hours, None if there are no hours or no such
    band. The look ends at the first hour outside the band, however far off the end is."""
    for band in profile.bands:
        if notice.hours() and all(hour in band for hour in notice.hours()):
            return band
    return None


def moment(winter, day, hour):
    """The date and time at which an hour begins."""
    midnight = datetime.combine(winters.book_dates(winter)[day], time())
    return midnight + timedelta(hours=hour)


# The rules for the whole call. Each test says whether the rule is broken.


def wrong_winter(winter, profile, numbers):
    """There is no such winter."""
    return winter not in winters.WINTERS


def wrong_profile(winter, profile, numbers):
    """There is no such profile."""
    return profile not in PROFILES


def wrong_length(winter, profile, numbers):
    """The numbers are no whole notices, or those of too many. `numbers` is None for bytes that
    are no whole numbers."""
    return numbers is None or len(numbers) % 3 != 0 or len(numbers) // 3 > MOST_NOTICES


# The rules for a notice. Each test may count on the ones before it: a day that is looked
# up is in the book, and hours that are gathered are the few of a band.


def outside_winter_period(standing, notice):
    """The winter period has no such day."""
    return notice.day not in day_kinds(standing.winter).period


def on_excluded_day(standing, notice):
    """No peak is on this day."""
    return notice.day in day_kinds(standing.winter).excluded


def on_barred_weekend(standing, notice):
    """The profile has no weekends, and the day is of one."""
    return not standing.profile.weekends and notice.day in day_kinds(standing.winter).weekend


def without_hours(standing, notice):
    """It is over when it begins, or before."""
    return not notice.hours()


def in_no_band(standing, notice):
    """No hour of any band is one of its own."""
    return not any(hour in notice.hours() for band in standing.profile.bands for hour in band)


def not_in_one_band(standing, notice):
    """No band has all its hours."""
    return band_of(standing.profile, notice) is None


def of_wrong_length(standing, notice):
    """The profile has no events of so many hours."""
    return len(notice.hours()) not in standing.profile.lengths


def starts_too_early(standing, notice):
    """The notice before it has not ended when this one begins."""
    if not standing.notices:
        return False
    before = standing.notices[-1]
    start = moment(standing.winter, notice.day, notice.first)
    return start < moment(standing.winter, before.day, before.end)


def in_same_band(standing, notice):
    """It shares the day and the band of the notice before it."""
    if not standing.notices:
        return False
    before = standing.notices[-1]
    bands = {band_of(standing.profile, one) for one in (before, notice)}
    return notice.day == before.day and len(bands) == 1


def over_winter_limit(standing, notice):
    """With its hours there are more than a winter may have."""
    return len(standing.hours | day_hours(notice)) > standing.profile.winter_hours


# What comes first decides.
CALL_RULES = (
    (1, wrong_winter),
    (5, wrong_profile),
    (4, wrong_length),
)

# What is wrong with the hours of a notice.
HOUR_RULES = (
    (13, without_hours),
    (26, in_no_band),
    (27, not_in_one_band),
)

# All of them for one notice after the other.
NOTICE_RULES = (
    (10, outside_winter_period),
    (11, on_excluded_day),
    (12, on_barred_weekend),
    *HOUR_RULES,
    (14, of_wrong_length),
    (15, starts_too_early),
    (16, in_same_band),
    (18, over_winter_limit),
)


def list_check(winter, profile, numbers):
    """The refusal number and the place, which counts the notices before the refused one; and
    what stands, if the list is accepted."""
    for number, broken in CALL_RULES:
        if broken(winter, profile, numbers):
            return number, 0, None
    standing = Standing(winter, PROFILES[profile])
    triples = zip(numbers[0::3], numbers[1::3], numbers[2::3])
    for place, notice in enumerate(Notice(*triple) for triple in triples):
        for number, broken in NOTICE_RULES:
            if broken(standing, notice):
                return number, place, None
        standing.add(notice)
    return 0, 0, standing


def masks(hours):
    """For each day that has event hours a number of 24 bits, of which an hour sets its own."""
    days = sorted({day for day, _ in hours})
    return {day: sum(2**hour for on, hour in hours if on == day) for day in days}


def line(winter, profile, numbers):
    """The whole answer to one query."""
    number, place, standing = list_check(winter, profile, numbers)
    if number:
        return f"{number},{place}"
    days = ",".join(f"{day}:{mask}" for day, mask in masks(standing.hours).items())
    events = ",".join(
        f"{min(notice.hours())}+{len(notice.hours())}" for notice in standing.notices
    )
    return f"0,0 masks={days} events={events}"
