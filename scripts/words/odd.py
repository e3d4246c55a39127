"""Last words on a statement: what stands in its text and looks odd. It changes no figure."""

from words.moments import event_in_words
from words.statements import cents_per_kwh

ONE_CENT = 1000
HUNDREDFOLD = 100

SETTLED = 0
MISSING = 21


def is_hundredfold(one, other):
    """Whether two readings differ a hundredfold; none at all counts as 1 Wh."""
    return max(one, other) >= HUNDREDFOLD * max(min(one, other), 1)


def and_more(count, what):
    """The words for findings of the same kind that are not told one by one."""
    return f" (and {count} more {what})" if count else ""


def low_price(text, statement):
    """A price under one cent."""
    if statement.price < ONE_CENT:
        yield (
            f"line 2: the price is {cents_per_kwh(statement.price)}, under one cent;"
            " it is written in thousandths of a cent, as 51967 for 51.967 cents"
        )


def all_missing(text, statement):
    """No line but lacks a reading."""
    if statement.lines and all(line.code == MISSING for line in statement.lines):
        yield (
            f"line 1: every event lacks a reading; is {statement.winter} the right winter,"
            " the year of its December, and is 1 November counted as day 0?"
        )


def odd_pair(read):
    """The first neighbours in a line of readings that differ a hundredfold, if any."""
    pairs = zip(read.values, read.values[1:])
    return next((pair for pair in pairs if is_hundredfold(*pair)), None)


def commas(text, statement):
    """Lines of readings with such neighbours; the first is told."""
    found = [read for read in text.reads() if odd_pair(read)]
    if found:
        one, other = odd_pair(found[0])
        more = and_more(len(found) - 1, "such lines")
        yield (
            f"line {found[0].line}: {one} and {other} stand side by side{more};"
            " was a decimal comma typed? Each comma begins the next hour's reading"
        )


def is_for_nothing(line):
    """Whether an event is settled and spared nothing."""
    return line.code == SETTLED and line.energy == 0


def nothing_spared(text, statement):
    """Such events; the first is told."""
    found = [index for index, line in enumerate(statement.lines) if is_for_nothing(line)]
    if found:
        about = event_in_words(text.winter, statement.lines[found[0]].notice)
        more = and_more(len(found) - 1, "such events")
        yield (
            f"line {text.notice_line(found[0])}: {about}, is settled and spared nothing{more};"
            " are the day and the readings right?"
        )


LOOKS = (low_price, all_missing, commas, nothing_spared)


def page(text, statement):
    """The last words, if any, with one line above them."""
    words = [sentence for look in LOOKS for sentence in look(text, statement)]
    if words:
        yield "The statement stands, but this looks odd:"
        yield from words
