"""Wrong readings of the rules, those that come most easily, each in a few lines.

A reading is a way to work out the lines of a settlement. It is right where nothing else is
said, so a wrong one differs in one point only.
"""

from typing import Callable, NamedTuple

from cases.clock_events import (
    ON_ANOTHER_DAY, references_by, sunday_of, unmarked_before, warm_up_by, warm_up_of,
)
from cases.event_books import LIMIT, Sums, formula_energy, references, stepped_book
from second import energies, settlements
from second.energies import EIGHTEENTHS, REFERENCE_DAYS, place_of

# Which days serve at an hour.


def whole_day_out(query, hour):
    """Right: a day that carries an event at any hour is out."""
    return references(query)


def event_hours_out(query, hour):
    """Wrong: of a day that carries an event only the event's hours are out."""
    taken = energies.marked_hours(query.numbers)
    days = energies.days_of_kind(query.winter, query.day)
    return [day for day in days if hour not in taken.get(day, ())][:REFERENCE_DAYS]


def never_the_sunday(query, hour):
    """Wrong: the Sunday the clocks go forward is passed over for every event."""
    taken = energies.marked_days(query.numbers) | {sunday_of(query.winter)}
    return unmarked_before(query.winter, taken, query.day)[:REFERENCE_DAYS]


def always_the_sunday(query, hour):
    """Wrong: it is passed over for no event."""
    taken = energies.marked_days(query.numbers)
    return unmarked_before(query.winter, taken, query.day)[:REFERENCE_DAYS]


# The warm-up hours of an event as they are read on a day, its own or a reference day.


def same_clock_hours(query, day):
    """Right: on every day those that its own day has."""
    return energies.warm_up_hours(query.winter, query.event())


def as_on_any_day(query, day):
    """Wrong: by the start alone, where the clocks go forward too."""
    return ON_ANOTHER_DAY[query.start]


def by_each_clock(query, day):
    """Wrong: on each day by that day's own elapsed hours."""
    return warm_up_of(query.winter, day, query.start)


# The sum of T over some hours. A table has the readings by hour, those of one hour by day.


def one_value_at_each_hour(table):
    """Right: at each hour one smallest and one largest value are left out."""
    return sum(sum(sorted(readings)[1:-1]) for readings in table)


def one_day_at_all_hours(table):
    """Wrong: the days that drew least and most in all are left out at every hour."""
    return sum(sorted(map(sum, zip(*table)))[1:-1])


# From the sums to the energy.


def limit_always(h, w, sums):
    """Wrong: the limit applies whatever the trial."""
    r, b, a, c = sums
    return max(6 * r + min(3 * a - b, 2 * b) * 6 * h // w - 18 * c, 0)


def floored_adjustment(h, w, sums):
    """Wrong: the adjustment is not negative."""
    r, b, a, c = sums
    stands = max(3 * a - b, 0)
    if 6 * r + stands * 6 * h // w - 18 * c > LIMIT:
        stands = min(stands, 2 * b)
    return max(6 * r + stands * 6 * h // w - 18 * c, 0)


# The energy of a line.


def as_it_is(energy):
    """Right: whole eighteenths of a Wh."""
    return energy


def whole_wh_down(energy):
    """Wrong: whole Wh, the rest cut off."""
    return energy // EIGHTEENTHS * EIGHTEENTHS


def nearest_whole_wh(energy):
    """Wrong: whole Wh, rounded."""
    return whole_wh_down(energy + EIGHTEENTHS // 2)


def whole_wh_up(energy):
    """Wrong: whole Wh, those begun counted too."""
    return whole_wh_down(energy + EIGHTEENTHS - 1)


# The cents of lines.


def each_line_by_itself(amounts, price):
    """Wrong: what each line is worth is rounded."""
    return [settlements.rounded(settlements.worth(energy, price)) for energy in amounts]


class Reading(NamedTuple):
    """A way to read the rules, right where nothing else is said."""
    days: Callable = whole_day_out
    warm_up: Callable = same_clock_hours
    usual: Callable = one_value_at_each_hour
    formula: Callable = formula_energy
    energy: Callable = as_it_is
    cents: Callable = settlements.line_cents


def on_another_sunday(weeks):
    """Wrong: the clocks go forward on the Sunday so many weeks later, or earlier."""
    def sunday(query):
        return sunday_of(query.winter) + 7 * weeks

    def days(query, hour):
        taken = energies.marked_days(query.numbers)
        return references_by(sunday(query), query.winter, taken, query.day, query.start)

    def warm_up(query, day):
        return warm_up_by(sunday(query), query.day, query.start)

    return Reading(days=days, warm_up=warm_up)


def energy_by(reading, query):
    """The energy of a query's event by a reading; no needed reading is missing. Hours are told by
    the day on which they are read."""
    book = stepped_book(query)
    event = query.event()

    def hours(day):
        return event.hours()

    def warm_up(day):
        return reading.warm_up(query, day)

    def usual(hours_on):
        return reading.usual([
            [book[place_of(day, hours_on(day)[turn])] for day in reading.days(query, hour)]
            for turn, hour in enumerate(hours_on(event.day))
        ])

    def own(hours_on):
        return sum(book[place_of(event.day, hour)] for hour in hours_on(event.day))

    sums = Sums(r=usual(hours), b=usual(warm_up), a=own(warm_up), c=own(hours))
    return reading.energy(reading.formula(len(event.hours()), len(warm_up(event.day)), sums))


def lines_by(reading, queries, price):
    """Energy and cents of the lines of these events by a reading."""
    amounts = [energy_by(reading, query) for query in queries]
    return list(zip(amounts, reading.cents(amounts, price)))
