"""Days and hours of a winter's book as a person says them.

A day of the book is a date by Python's own calendar: day 0 is 1 November of the winter's year.
"""

from datetime import date, timedelta

WEEKDAYS = ("Monday", "Tuesday", "Wednesday", "Thursday", "Friday", "Saturday", "Sunday")
MONTHS = (
    "January", "February", "March", "April", "May", "June", "July",
    "August", "September", "October", "November", "December",
)
HOURS = 24


def first_date(winter):
    """The date of day 0."""
    return date(winter, 11, 1)


def last_day(winter):
    """The number of 31 March, the book's last day."""
    return (date(winter + 1, 3, 31) - first_date(winter)).days


def day_of_month(on):
    """A date without its weekday."""
    return f"{on.day} {MONTHS[on.month - 1]} {on.year}"


def day_in_words(winter, day):
    """A day of the book with its weekday; a day past it has no date here."""
    if day > last_day(winter):
        end = day_of_month(date(winter + 1, 3, 31))
        return f"day {day}, which is past {end}, day {last_day(winter)}"
    on = first_date(winter) + timedelta(day)
    return f"{WEEKDAYS[on.weekday()]}, {day_of_month(on)}"


def hours_in_words(start, end):
    """The hours from one full hour to another."""
    return f"{start}:00 to {end}:00"


def event_in_words(winter, notice):
    """Day and hours of a notice."""
    day, start, end = notice
    return f"{day_in_words(winter, day)}, {hours_in_words(start, end)}"


def place_in_words(winter, place):
    """The one hour of the book at a place."""
    day, hour = divmod(place, HOURS)
    return event_in_words(winter, (day, hour, hour + 1))
