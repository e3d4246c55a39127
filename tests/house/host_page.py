"""What examples/host.c has to print: numbers by the second program, words by the header.

    cd tests/house && python3 host_page.py >../../examples/host.expected

The books of the example are made here a second time; its lists of trials are read from its table.
"""

import re
from itertools import product
from typing import NamedTuple

import reach
from common.c_programs import HEADER
from common.harness import ROOT, Failure
from second import power, settlements
from second.energies import HIGHEST_READING, HOURS, MISSING
from second.notices import list_check
from second.settlements import Call

EXAMPLE = ROOT / "examples" / "host.c"

WINTER = 2026
DAYS = 151
MISSING_OR_LARGE = (21, 22)


# The header's words.


def enumerated():
    """The numbers of the header's names."""
    return {name: int(number) for name, number in re.findall(r"(\w+) = (\d+)", HEADER.read_text())}


def words_of(function):
    """The words that a function of the header has, by number."""
    body = re.search(rf"{function}\(.*?\n}}", HEADER.read_text(), re.S)
    if not body:
        raise Failure(f"the header has no {function}")
    numbers = enumerated()
    cases = re.findall(r'case (\w+): return "([^"]*)";', body[0])
    return {numbers[name]: words for name, words in cases}


# Settlements.


class Account(NamedTuple):
    """A winter's notices at a price, with their readings by day and hour."""
    price: int
    notices: list
    readings: dict


def at(days, hours, reading):
    """The same reading at these hours of these days."""
    return dict.fromkeys(product(days, hours), reading)


def sample():
    """The sample, an event without readings, and a reading that no meter gives."""
    readings = {}
    for day, reading in ((31, 2000), (32, 2100), (33, 2200), (36, 2300), (37, 2400)):
        readings |= at([day], [1, 2, 3, 6, 7, 8], reading)
    readings |= at([38], [1, 2, 3], 2500) | at([38], [6, 7, 8], 1000)
    readings |= at([40], [1], HIGHEST_READING + 1)
    return Account(51967, [(38, 6, 9), (39, 16, 17), (40, 6, 7)], readings)


def at_limit():
    """C = 11,000, and on the next day 10,999."""
    readings = at(range(DAYS), [1, 2, 3], 1000) | at(range(DAYS), [6, 7, 8], 14000)
    readings |= at([38, 39], [1, 2, 3, 6, 7], 4000) | at([38], [8], 3000) | at([39], [8], 2999)
    return Account(50000, [(38, 6, 9), (39, 6, 9)], readings)


def halves():
    """Three lines of half a cent."""
    readings = at(range(DAYS), range(HOURS), 1000) | at([38, 39, 40], [6], 990)
    return Account(50000, [(38, 6, 7), (39, 6, 7), (40, 6, 7)], readings)


def flat(notices):
    """The numbers of a list of notices."""
    return tuple(number for notice in notices for number in notice)


def book_of(readings):
    return tuple(readings.get(pair, MISSING) for pair in product(range(DAYS), range(HOURS)))


def line_said(notice, line):
    """The line of a notice, with its code in words."""
    day, hour = divmod(line.place, HOURS)
    where = f": day {day}, hour {hour}" if line.code in MISSING_OR_LARGE else ""
    words = words_of("ibisladder_event_text")[line.code]
    return f"line={','.join(map(str, (*notice, *line)))}  {words}{where}"


def account_page(account):
    """The lines of a settlement and the totals."""
    room = settlements.LINE_NUMBERS * len(account.notices)
    call = Call(WINTER, book_of(account.readings), account.price, flat(account.notices), room)
    given = settlements.settlement(call)
    yield from (f"winter={WINTER}", f"price={account.price}", f"events={len(account.notices)}")
    yield from map(line_said, account.notices, given.lines)
    yield from (f"energy={given.energy}", f"total={given.cents}")


# Medium-power sites.


class Site(NamedTuple):
    """A site's notices with their references, and its readings by day and hour."""
    notices: list
    references: tuple
    readings: dict


def medium_power():
    """An event of three hours, one of four, one that spared nothing, one that lacks a reading."""
    readings = at([38], [6, 7], 20000) | at([38], [8], 19500) | at([39], range(16, 20), 30000)
    readings |= at([40], [6, 7, 8], 125000) | at([43], [16, 18], 30000)
    return Site([(38, 6, 9), (39, 16, 20), (40, 6, 9), (43, 16, 19)], 4 * (120000,), readings)


def at_bound(drawn):
    """One event, of 200 kW less what was drawn."""
    return Site([(38, 6, 9)], (200000,), at([38], [6, 7, 8], drawn))


def call_of(site):
    """The call that settles a site."""
    room = settlements.LINE_NUMBERS * len(site.notices)
    book, listed = book_of(site.readings), flat(site.notices)
    return power.Call(WINTER, book, listed, site.references, room, power.TOTALS_NUMBERS)


def settled(site):
    """The lines of a site, and its three totals."""
    events = power.settlement(call_of(site)).events
    return power.lines_of(events), power.totals_of(events)


def site_page(site):
    """The lines of a site, each with its reference, and the totals, in kW and dollars too."""
    lines, (reductions, count, cents) = settled(site)
    yield from (f"winter={WINTER}", f"events={len(site.notices)}")
    for reference, notice, line in zip(site.references, site.notices, lines):
        yield f"reference={reference}  {line_said(notice, line)}"
    watts = reductions // (12 * count)
    yield from (f"reductions={reductions}", f"settled={count}")
    said = f"{watts // 1000}.{watts % 1000:03} kW, {cents // 100}.{cents % 100:02}"
    yield f"credit={cents}  {said} dollars"


# Refusals.


TRIAL = re.compile(r'^ {4}\{"([^"]+)", (\d+), (\d+), (\d+), \{(\{.*?\})\}, ', re.M)


def trials():
    """The rows of the example's table: what is tried, the winter, the profile and the notices."""
    for tried, winter, profile, count, rows in TRIAL.findall(EXAMPLE.read_text()):
        notices = [tuple(map(int, row.split(", "))) for row in re.findall(r"\{([^{}]+)\}", rows)]
        yield tried, int(winter), int(profile), notices[:int(count)]


def long_lists():
    """100 hours, 101, and a byte over."""
    notices = [(63 + day, 6, 10) for day in range(25)]
    yield "100 hours", list_check(WINTER, 1, flat(notices))
    yield "101 hours", list_check(WINTER, 1, flat([*notices, (88, 6, 7)]))
    yield "a byte over", list_check(WINTER, 1, None)


def refused_settlements():
    """Settlements that are refused for other reasons than the list."""
    book, notice = book_of({}), (38, 6, 9)
    right = Call(WINTER, book, 51967, notice, settlements.LINE_NUMBERS)
    for tried, call in (
        ("a byte of the book missing", right._replace(book=None)),
        ("151 days in a leap year", right._replace(winter=WINTER + 1)),
        ("no price", right._replace(price=0)),
        ("a byte of the output missing", right._replace(room=settlements.LINE_NUMBERS - 1)),
    ):
        yield tried, settlements.settlement(call)


def refused_sites():
    """Medium-power sites that are refused for their references or their outputs."""
    right = call_of(Site([(38, 6, 9), (39, 6, 9)], (10_000_000, 10_000_001), {}))
    for tried, call in (
        ("one reference for two notices", right._replace(references=right.references[:1])),
        ("a second reference of 10,000,001 W", right),
        ("a byte of the totals missing", right._replace(totals_room=power.TOTALS_NUMBERS - 1)),
    ):
        yield tried, power.settlement(call)


def refusals_said(answers):
    """Each trial with its number, its place and its words."""
    words = words_of("ibisladder_refusal_text")
    for tried, (number, place, *_) in answers:
        yield f"{tried}: {number},{place}  {words[number]}"


def refusal_page():
    """All refusals: of lists, of settlements and of sites."""
    answers = [
        (tried, list_check(winter, profile, flat(notices)))
        for tried, winter, profile, notices in trials()
    ]
    yield from refusals_said([*answers, *long_lists(), *refused_settlements()])
    yield "written by these: nothing"
    yield from refusals_said(refused_sites())
    yield "written by these: nothing"


def page():
    """All that the example prints."""
    accounts = [account_page(account) for account in (sample(), at_limit(), halves())]
    sites = [site_page(site) for site in (medium_power(), at_bound(1000), at_bound(0))]
    return "".join(f"{line}\n" for part in (*accounts, *sites, refusal_page()) for line in part)


if __name__ == "__main__":
    print(page(), end="")
