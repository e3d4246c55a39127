"""The second program's statement: section 8 of docs/RULES.md, told by one pattern for each line.

A text is split at every byte 10, a line is numbers if its pattern fits it as a whole, and
the settlement is the second program's own. A refusal is an exception that carries its
number and place.

    cd tests/comparison && python3 -m second.statements < text

prints the statement of a text.
"""

import re
import sys
from typing import NamedTuple

from second import energies, notices, settlements, winters
from second.energies import HOURS, MISSING
from second.notices import MOST_NOTICES

LONGEST_TEXT = 65_536

# The bytes that the call on a text asks of its output. The specification says nothing of an output that
# is too small: a choice of ours, "An output that is too small" in docs/DECISIONS.md.
ROOM = 20_480

# The mark of a missing reading cannot be written. A number of more than ten digits is larger
# still, so it need not be worked out.
LARGEST_NUMBER = 4_294_967_294
NUMBER = rb"(?:0|[1-9][0-9]{0,9})"


class Refused(Exception):
    """A text that is refused, with the number and the place."""

    def __init__(self, number, place=0):
        super().__init__(number, place)
        self.number = number
        self.place = place


class Read(NamedTuple):
    """A read line: where it stands in the text, from 1, and what it says."""
    line: int
    day: int
    hour: int
    values: list

    def places(self):
        """Where the book has its values, one behind the other."""
        start = energies.place_of(self.day, self.hour)
        return range(start, start + len(self.values))


class Text(NamedTuple):
    """What a text says that has the form."""
    winter: int
    price: int
    notices: list
    reads: list


# The form.


def pattern(key, least, most):
    """The pattern of a line with this key and from `least` to `most` numbers."""
    more = rb"{%d,%d}" % (least - 1, most - 1)
    return re.compile(rb"%b=(%b(?:,%b)%b)" % (key, NUMBER, NUMBER, more))


WINTER = pattern(b"winter", 1, 1)
PRICE = pattern(b"price", 1, 1)
EVENTS = pattern(b"events", 1, 1)
EVENT = pattern(b"event", 3, 3)
READS = pattern(b"reads", 1, 1)
# Day and hour, and the values of a day's hours at most.
READ = pattern(b"read", 2 + 1, 2 + 24)


def numbers_of(form, line):
    """The numbers of a line, none if the line does not have the form."""
    found = form.fullmatch(line)
    numbers = [int(digits) for digits in found[1].split(b",")] if found else []
    return numbers if max(numbers, default=0) <= LARGEST_NUMBER else []


class Lines:
    """The lines of a text, taken one after the other. What stands behind the last byte 10 is an
    unfinished one."""

    def __init__(self, text):
        *self.finished, self.unfinished = text.split(b"\n")
        self.taken = 0

    def take(self, form):
        """The numbers of the next line. It is refused where it is not there, has no end, or does
        not have its form."""
        left = self.finished[self.taken:self.taken + 1]
        numbers = numbers_of(form, left[0]) if left else []
        if not numbers:
            raise Refused(30, self.taken + 1)
        self.taken += 1
        return numbers

    def take_one(self, form):
        """The only number of the next line."""
        (number,) = self.take(form)
        return number

    def end(self):
        """Behind the last line there is not a byte. That what is there counts as one line more,
        finished or not, is a choice of ours: "Counts that do not fit" in docs/DECISIONS.md."""
        if self.finished[self.taken:] or self.unfinished:
            raise Refused(30, self.taken + 1)


def taken_read(lines):
    """The next line as a read line."""
    day, hour, *values = lines.take(READ)
    return Read(lines.taken, day, hour, values)


def said(text):
    """What a text says, if it has the form."""
    lines = Lines(text)
    winter = lines.take_one(WINTER)
    price = lines.take_one(PRICE)
    # A text may name far more lines than it has (rule 8.7): the first that is missing ends this.
    listed = [lines.take(EVENT) for _ in range(lines.take_one(EVENTS))]
    reads = [taken_read(lines) for _ in range(lines.take_one(READS))]
    lines.end()
    return Text(winter, price, listed, reads)


# The book.


def check_reads(winter, reads):
    """31, at the first read line that the book or its day cannot hold, or that begins before
    the one above it has ended."""
    days = range(len(winters.book_dates(winter)))
    end_before = 0
    for read in reads:
        if read.day not in days or read.hour + len(read.values) > HOURS:
            raise Refused(31, read.line)
        if read.places().start < end_before:
            raise Refused(31, read.line)
        end_before = read.places().stop


def book_of(winter, reads):
    """The book, in which an hour without a value is missing."""
    listed = {place: value for read in reads for place, value in zip(read.places(), read.values)}
    length = HOURS * len(winters.book_dates(winter))
    return tuple(listed.get(place, MISSING) for place in range(length))


# The statement.


def settled(told):
    """The settlement that a text asks for, by the rules of a text in their own order."""
    if told.winter not in winters.WINTERS:
        raise Refused(1)
    check_reads(told.winter, told.reads)
    if told.price not in settlements.PRICES:
        raise Refused(3)
    if len(told.notices) > MOST_NOTICES:
        raise Refused(4)
    numbers = tuple(number for notice in told.notices for number in notice)
    number, place, standing = notices.list_check(told.winter, 1, numbers)
    if number:
        raise Refused(number, place)
    book = book_of(told.winter, told.reads)
    return settlements.settled(told.winter, book, told.price, standing.notices)


def printed(told, given):
    """The lines of a statement."""
    yield f"winter={told.winter}"
    yield f"price={told.price}"
    yield f"events={len(told.notices)}"
    for notice, line in zip(told.notices, given.lines):
        yield f"line={winters.joined((*notice, *line))}"
    yield f"energy={given.energy}"
    yield f"total={given.cents}"


def statement(text):
    """What `statement` prints for a text: its statement, or rule 8.13's line."""
    try:
        if len(text) > LONGEST_TEXT:
            raise Refused(32)
        told = said(text)
        lines = list(printed(told, settled(told)))
    except Refused as refused:
        lines = [f"refused={refused.number},{refused.place}"]
    return "".join(f"{line}\n" for line in lines).encode("ascii")


def text_call(text, output):
    """The call on a text: how many bytes it writes at the front of the lent output, and the output
    after it. With too little room it writes nothing."""
    printed_bytes = statement(text) if len(output) >= ROOM else b""
    return len(printed_bytes), printed_bytes + output[len(printed_bytes):]


def main():
    sys.stdout.buffer.write(statement(sys.stdin.buffer.read()))


if __name__ == "__main__":
    main()
