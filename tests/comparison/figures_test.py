"""Asks for the figures of docs/RULES.md in every way that there is, and of the second program too.

Each figure is asked of its layer by itself where it is one of a layer's, called from C, and as a
text, which the medium-power settlement has not. All must say what the figure says.
The last line printed is "N passed, M failed".
"""

import random
from functools import partial
from itertools import product

import reach
from cases import calls, statement_runs
from cases.calls import both_of_calls
from cases.checks import check_figure, check_same, shown
from cases.event_books import bare_query, with_readings
from cases.figures import (
    CHECK_FIGURES, CLOCK_SUNDAY, DAY_FIGURES, EASTER_DAYS, EASTER_LISTS, EVENT_FIGURES,
    FIXED_DAYS, HUNDRED_HOURS, LIST_FIGURES, POWER_FIGURES, REFERENCES, SETTLEMENT_FIGURES,
    SUNDAY_HOURS,
)
from cases.layers import (
    both_of_days, both_of_events, both_of_lists, fields, number_and_place, pairs,
)
from cases.statement_cases import sample_parts
from cases.statement_runs import both_of_texts
from cases.statement_texts import SAMPLE, SAMPLE_STATEMENT, SMALLEST, text_of_call
from common.harness import Failure, run_tests
from second import winters
from second.energies import MISSING, place_of

SEED = 2026

EMPTY_STATEMENT = b"winter=2026\nprice=1\nevents=0\nenergy=0\ntotal=0\n"


def check_said(both, query, right):
    """Both programs say the figure."""
    said, second = both([query])
    if [*said, *second] != [right, right]:
        raise Failure(f"{query}: {shown(said)} and {shown(second)}, {shown(right)} is right")


# By layer.


def check_day(query, right):
    """Both programs say so in one field of their lines."""
    for line in sum(both_of_days([query]), []):
        if right not in line.split(" "):
            raise Failure(f"query {query}: {line} does not say {right}")


def check_excluded(winter, easter_days):
    """The winter excludes the six fixed days, these, and no others, by both programs."""
    queries = [(winter, day, 0) for day in range(len(winters.book_dates(winter)))]
    right = sorted(FIXED_DAYS.union(easter_days))
    for lines in both_of_days(queries):
        kinds = [fields(line).get("kind", "") for line in lines]
        excluded = [day for day, kind in enumerate(kinds) if kind.endswith(",1")]
        if excluded != right:
            raise Failure(f"excluded are {excluded}, {right} is right")


def list_told(case, line):
    """Number and place of a list."""
    return number_and_place(line)


def check_hundred_hours(cases):
    """The first of these lists has just 100 hours by its masks."""
    check_figure(cases, both_of_lists, list_told)
    for (stands,) in both_of_lists([cases[0].query]):
        hours = sum(mask.bit_count() for _, mask in pairs(stands, "masks", ":"))
        if hours != 100:
            raise Failure(f"the masks have {hours} hours")


def settled_event(numbers, day, hours):
    """A query on an event of winter 2026 in a book that has every reading."""
    return bare_query(2026, numbers, day, hours)._replace(seed=SEED, low=500, spread=4_000)


def check_references(numbers, day, hours, right):
    """Of all days of the book just these are reference days, nearest first: a missing
    reading at a needed hour changes the answer on them only, and of several missing ones
    that on the nearest day decides."""
    warm_up, (start, end) = hours
    query = settled_event(numbers, day, (start, end))
    others = [other for other in range(query.length // 24) if other != day]
    # The first and the last needed hour of each day.
    first, last = warm_up[0], end - 1
    places = list(product(others, (first, last)))
    tails = [right[nearest:] for nearest in range(len(right))]
    queries = [
        query,
        *(with_readings(query, {place: MISSING}) for place in places),
        *(with_readings(query, {(other, first): MISSING for other in tail}) for tail in tails),
    ]
    (whole, *said), second = both_of_events(queries)
    check_same(queries, [whole, *said], second)
    if not whole.startswith("0,0,0,"):
        raise Failure(f"the library said {whole} before a reading was missing")
    missing = {place: f"0,21,{place_of(*place)},0" for place in places if place[0] in right}
    of_tails = [f"0,21,{place_of(tail[0], first)},0" for tail in tails]
    check_same(queries[1:], said, [*(missing.get(one, whole) for one in places), *of_tails])


def check_sunday_hours(hours):
    """Of all hours of its own day an event of that Sunday needs just these."""
    warm_up, (start, end) = hours
    query = settled_event((), CLOCK_SUNDAY, (start, end))
    places = [(CLOCK_SUNDAY, hour) for hour in range(24)]
    queries = [query, *(with_readings(query, {place: MISSING}) for place in places)]
    (whole, *said), second = both_of_events(queries)
    check_same(queries, [whole, *said], second)
    if not whole.startswith("0,0,0,"):
        raise Failure(f"the library said {whole} before a reading was missing")
    needed = {*warm_up, *range(start, end)}
    right = [f"0,21,{place_of(*one)},0" if one[1] in needed else whole for one in places]
    check_same(queries[1:], said, right)


# As a text.


def check_sample():
    """The sample of rule 8.16, in and out. The texts of the other tests are put together in
    the same way: the sample's parts make the sample."""
    check_said(both_of_texts, SAMPLE, SAMPLE_STATEMENT)
    made = sample_parts({}).text()
    if made != SAMPLE:
        raise Failure(f"the sample's parts make {shown(made)}")


def figure_texts():
    """The figures as texts that ask for the same as the calls from C."""
    source = random.Random(SEED)
    return [
        (name, [text_of_call(source, case) for case in cases])
        for name, cases in SETTLEMENT_FIGURES
    ]


def all_tests():
    """Every test, as its name and a check that raises Failure."""
    return [
        *((name, partial(check_day, *figure)) for name, *figure in DAY_FIGURES),
        *((name, partial(check_excluded, *days)) for name, *days in EASTER_DAYS),
        *(
            (f"{name}, by list", partial(check_said, both_of_lists, *figure))
            for name, *figure in LIST_FIGURES
        ),
        *(
            (f"{name}, by list", partial(check_figure, cases, both_of_lists, list_told))
            for name, cases in EASTER_LISTS
        ),
        *(
            (f"{name}, by list", partial(check_hundred_hours, cases))
            for name, cases in HUNDRED_HOURS
        ),
        *(
            (f"{name}, by event", partial(check_said, both_of_events, *figure))
            for name, *figure in EVENT_FIGURES
        ),
        *(
            (f"{name}, by event", partial(check_references, *figure))
            for name, *figure in REFERENCES
        ),
        *(
            (f"{name}, by event", partial(check_sunday_hours, hours))
            for name, hours in SUNDAY_HOURS
        ),
        *(
            (f"{name}, {way}", partial(check_figure, cases, both_of_calls, calls.told))
            for way, figures in (
                ("checked from C", CHECK_FIGURES), ("from C", SETTLEMENT_FIGURES),
                ("from C", POWER_FIGURES),
            )
            for name, cases in figures
        ),
        ("the sample", check_sample),
        (
            "empty list: accepted, total 0",
            partial(check_said, both_of_texts, SMALLEST, EMPTY_STATEMENT),
        ),
        *(
            (f"{name}, as a text", partial(check_figure, cases, both_of_texts, statement_runs.told))
            for name, cases in figure_texts()
        ),
    ]


if __name__ == "__main__":
    run_tests(all_tests())
