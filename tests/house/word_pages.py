"""What a page of `scripts/statement --words` has to say, by the second program and the text.

Figures, codes and refusals are the second program's, dates those of its winters, and line numbers
are counted in the text.
"""

from decimal import ROUND_HALF_UP, Decimal
from fractions import Fraction

from common.harness import Failure
from second import winters
from second.energies import HOURS
from second.notices import NOTICE_RULES
from second.statements import LONGEST_TEXT, Refused, said, settled

ANSWERED, REFUSED = 0, 3

# A page quotes this much of a line.
QUOTED = 100

MISSING = 21

# The line of a refusal without a place, and of the first notice.
LINES = {1: 1, 3: 2, 4: 3}
FIRST_NOTICE = 4

# The refusals that are about a notice.
OF_NOTICE = {number for number, _ in NOTICE_RULES}

# The odd things, by words of their sentences.
LOW_PRICE, ALL_MISSING = "under one cent", "every event lacks"
COMMA, NOTHING = "decimal comma", "spared nothing"


def check_holds(line, parts):
    """A line says all of this."""
    for part in parts:
        if part not in line:
            raise Failure(f"{line!r} does not say {part!r}")


def day_said(winter, day):
    """A date; a day past the book has none."""
    dates = winters.book_dates(winter)
    if day >= len(dates):
        return f"day {day}, which is past 31 March {winter + 1}, day {len(dates) - 1}"
    return dates[day].strftime("%A, %d %B %Y").replace(" 0", " ")


def hours_said(winter, day, start, end):
    """A day's hours."""
    return f"{day_said(winter, day)}, {start}:00 to {end}:00"


def worth_said(energy, cents):
    """Energy and worth."""
    kwh = Fraction(energy, 18_000)
    exact = Decimal(kwh.numerator) / Decimal(kwh.denominator)
    rounded = exact.quantize(Decimal("0.001"), ROUND_HALF_UP)
    return f"{rounded:,} kWh spared, {Decimal(cents) / 100:,.2f} dollars"


# Statements.


def where_listed(told, place):
    """The line of the text that lists an hour, and its reading; where none does, the last line
    before it."""
    before = [read for read in told.reads if read.places().start <= place]
    if not before:
        return FIRST_NOTICE + len(told.notices), None
    last = before[-1]
    return last.line, dict(zip(last.places(), last.values)).get(place)


def line_said(told, line):
    """What the line of a notice says besides its own day and hours."""
    if line.code == 0:
        return [worth_said(line.energy, line.cents)]
    day, hour = divmod(line.place, HOURS)
    where = hours_said(told.winter, day, hour, hour + 1)
    listed, value = where_listed(told, line.place)
    if (line.code == MISSING) != (value is None):
        raise Failure(f"the reading at {line.place} is {value}, and the code {line.code}")
    rest = f"behind line {listed}" if value is None else f"in line {listed} is {value} Wh"
    return [f"not settled ({line.code})", where, rest]


def odd_said(told, given):
    """Which odd things are so."""
    pairs = [pair for read in told.reads for pair in zip(read.values, read.values[1:])]
    codes = {line.code for line in given.lines}
    return {
        LOW_PRICE: told.price < 1000,
        ALL_MISSING: codes == {MISSING},
        COMMA: any(max(pair) >= 100 * max(min(pair), 1) for pair in pairs),
        NOTHING: any((line.code, line.energy) == (0, 0) for line in given.lines),
    }


def check_statement(told, given, page):
    """A statement's first line, a line for each notice, the totals, and the odd things."""
    head, *rows = page[:1 + len(given.lines)]
    total, *rest = page[1 + len(given.lines):]
    winter = f"Winter {told.winter}/{(told.winter + 1) % 100:02} "
    check_holds(head, [winter, f"{Decimal(told.price) / 1000:,.3f} cents", f"{len(rows)} notice"])
    for index, (row, notice, line) in enumerate(zip(rows, told.notices, given.lines)):
        own = f"line {FIRST_NOTICE + index}: {hours_said(told.winter, *notice)}: "
        check_holds(row, [own, *line_said(told, line)])
    check_holds(total, [f"together: {worth_said(given.energy, given.cents)}"])
    for words, is_so in odd_said(told, given).items():
        if (words in "\n".join(rest)) != is_so:
            raise Failure(f"{words!r} is said or is so, not both: {rest}")


# Refusals.


def line_of(refused):
    """The line of the text that a refusal is about, 0 for none."""
    if refused.number in OF_NOTICE:
        return FIRST_NOTICE + refused.place
    return LINES.get(refused.number, refused.place)


def check_quoted(lines, number, page):
    """The page quotes the line, as far as the text has it and it is not too long."""
    stands = ascii(lines[number - 1])[2:-1] if number <= len(lines) else ""
    if page[2:] and page[2].strip()[:QUOTED] != stands[:QUOTED].strip():
        raise Failure(f"line {number} is {stands}, not {page[2]!r}")


def check_refusal(text, refused, page):
    """The number, the line that it is about with what stands there, and the notice if it is one."""
    check_holds(page[0], [f"refused with number {refused.number}."])
    number = line_of(refused)
    if number:
        check_holds(page[1], [f"line {number}: "])
        check_quoted(text.split(b"\n"), number, page)
    if refused.number in OF_NOTICE:
        told = said(text)
        notice = hours_said(told.winter, *told.notices[refused.place])
        check_holds(page[1], [f"the notice of {notice}, "])


def check_page(text, page):
    """Holds a page to the second program, and gives the exit status that it has to have."""
    try:
        if len(text) > LONGEST_TEXT:
            raise Refused(32)
        told = said(text)
        given = settled(told)
    except Refused as refused:
        check_refusal(text, refused, page)
        return REFUSED
    check_statement(told, given, page)
    return ANSWERED
