"""Runs wrong readings of the rules, each on an input made for it.

On that input a wrong reading gives another answer than the second program, or the test fails;
and the library must give the second program's: event by event, from C, and as a text.
The last line printed is "N passed, M failed".
"""

from functools import partial
from typing import NamedTuple

import reach
from cases.calls import LINE_BYTES, Settle, both_of_calls
from cases.checks import check_same
from cases.event_books import bare_query, stepped_book, with_readings
from cases.figures import limit_query, sample_query
from cases.layers import both_of_events, told
from cases.notice_lists import flat, notices_in
from cases.settlement_books import LEVEL, Saving, level_book, packed
from cases.statement_runs import both_of_texts, read_statement
from cases.statement_texts import Parts, book_reads
from cases.wrong_readings import (
    Reading, always_the_sunday, as_on_any_day, by_each_clock, each_line_by_itself,
    event_hours_out, floored_adjustment, limit_always, lines_by, nearest_whole_wh,
    never_the_sunday, on_another_sunday, one_day_at_all_hours, whole_wh_down, whole_wh_up,
)
from common.harness import Failure, run_tests
from second.energies import Query

RIGHT = Reading()


class Trap(NamedTuple):
    """A wrong reading, the list and book on which it shows, as a query for any event of the
    list, and a price. Energies show too, unless only the cents are read wrongly."""
    name: str
    wrong: Reading
    asked: Query
    price: int
    energies_show: bool = True

    def listed(self):
        """The notices of the list."""
        return notices_in(self.asked.numbers)

    def queries(self):
        """The list's events, each as a query of its own."""
        return [
            self.asked._replace(day=day, start=s, end=e) for day, s, e in self.listed()
        ]


# The inputs. All are of winter 2026, where day 38 is a Wednesday. The clocks go forward on day 133,
# and day 140 is the Sunday after it.


def level_query(listed, savings):
    """A book that is level but for these savings."""
    book = level_book(2026, listed, savings)
    changes = tuple((at, number) for at, number in enumerate(book) if number != LEVEL)
    return bare_query(2026, flat(listed), 38, (6, 9))._replace(low=LEVEL, changes=changes)


def drawn_query(*listed):
    """A book in which no two readings need be alike, and events that draw little."""
    query = bare_query(2026, flat(listed), 38, (6, 9))
    query = query._replace(seed=2026, low=2_000, spread=1_000)
    return with_readings(query, {(day, hour): 500 for day, s, e in listed for hour in range(s, e)})


def mild_morning_query():
    """The sample, with a warm-up that draws less than usual: 3A - B is -1,800."""
    return with_readings(sample_query(), {(38, hour): 2_000 for hour in (1, 2, 3)})


# 10 Wh below the level are an energy of 180, half a cent at 50,000; 1 Wh above it in the warm-up
# of an event of one hour is an energy of 6, a third of a Wh.
HALF_CENTS = level_query([(38, 6, 9), (38, 16, 20), (39, 7, 8)], [Saving(10)] * 3)
THIRDS_OF_A_WH = level_query([(day, 6, 7) for day in (36, 37, 38)], [Saving(0, 1)] * 3)

# Readings of the Sunday the clocks go forward, and an event each.
OF_THE_CLOCKS = (
    ("clocks: passed over for start 8 too", Reading(days=never_the_sunday), (140, 8, 10)),
    ("clocks: passed over for start 16 too", Reading(days=never_the_sunday), (139, 16, 17)),
    ("clocks: not passed over for start 6", Reading(days=always_the_sunday), (140, 6, 9)),
    ("clocks: not passed over for start 7", Reading(days=always_the_sunday), (139, 7, 8)),
    ("clocks: hours 1, 2, 3 before 6", Reading(warm_up=as_on_any_day), (133, 6, 9)),
    ("clocks: hours 2, 3, 4 before 7", Reading(warm_up=as_on_any_day), (133, 7, 10)),
    ("clocks: other hours on reference days", Reading(warm_up=by_each_clock), (133, 6, 9)),
    (
        "clocks: other hours on it as a reference day",
        Reading(days=always_the_sunday, warm_up=by_each_clock), (140, 6, 9),
    ),
    ("clocks: the first Sunday of March", on_another_sunday(-1), (133, 6, 9)),
    ("clocks: the first Sunday of March passed over", on_another_sunday(-1), (139, 6, 9)),
    ("clocks: the last Sunday of March", on_another_sunday(2), (147, 6, 9)),
)

TRAPS = (
    Trap(
        "the same two days left out at every hour",
        Reading(usual=one_day_at_all_hours), limit_query(11_000), 50_000,
    ),
    Trap(
        "a day that serves beside its event",
        Reading(days=event_hours_out), drawn_query((51, 16, 17), (57, 6, 9)), 50_000,
    ),
    Trap(
        "every line's cents rounded alone",
        Reading(cents=each_line_by_itself), HALF_CENTS, 50_000, energies_show=False,
    ),
    *(
        Trap(
            f"an energy in whole Wh, {way}",
            Reading(energy=rounding), THIRDS_OF_A_WH, 1_000_000,
        )
        for way, rounding in (
            ("down", whole_wh_down), ("to the nearest", nearest_whole_wh), ("up", whole_wh_up),
        )
    ),
    Trap("the limit at any trial", Reading(formula=limit_always), limit_query(11_000), 50_000),
    Trap(
        "no adjustment below 0",
        Reading(formula=floored_adjustment), mild_morning_query(), 50_000,
    ),
    *(Trap(name, wrong, drawn_query(notice), 1_000_000) for name, wrong, notice in OF_THE_CLOCKS),
)


# The tests.


def check_shows(trap, right, column, name):
    """Read wrongly the lines have other numbers in this column, and read rightly these."""
    rightly = [line[column] for line in lines_by(RIGHT, trap.queries(), trap.price)]
    wrongly = [line[column] for line in lines_by(trap.wrong, trap.queries(), trap.price)]
    print(f"  {name} {right}, wrongly {wrongly}")
    if rightly != right:
        raise Failure(f"the right reading has {name} {rightly}, not {right}")
    if wrongly == right:
        raise Failure(f"the wrong reading has the same {name}, {right}")


def check_events(trap):
    """The energies of the events, each by itself."""
    queries = trap.queries()
    said, second = both_of_events(queries)
    check_same(queries, said, second)
    rows = [told(line) for line in said]
    if any((row.kind, row.number) != ("code", 0) for row in rows):
        raise Failure(f"not all events are settled: {said}")
    check_shows(trap, [row.energy for row in rows], 0, "energies")


def check_call(trap):
    """The cents of the settlement, called from C."""
    lent = packed(trap.asked.numbers)
    length = LINE_BYTES * len(trap.listed())
    query = Settle(2026, packed(stepped_book(trap.asked)), trap.price, lent, length)
    given, second = both_of_calls([query])
    check_same([query], given, second)
    check_shows(trap, [line.cents for line in given[0].lines(len(trap.listed()))], 1, "cents")


def check_text(trap):
    """The cents of the statement."""
    reads = book_reads(stepped_book(trap.asked))
    text = Parts(2026, trap.price, trap.listed(), reads).text()
    printed, second = both_of_texts([text])
    check_same([text], printed, second)
    check_shows(trap, [line.cents for line in read_statement(printed[0]).lines], 1, "cents")


def all_tests():
    """Every test, as its name and a check that raises Failure."""
    ways = (("by event", check_events), ("from C", check_call), ("as a text", check_text))
    return [
        (f"{trap.name}, {way}", partial(check, trap))
        for trap in TRAPS
        for way, check in ways
        if trap.energies_show or check is not check_events
    ]


if __name__ == "__main__":
    run_tests(all_tests())
