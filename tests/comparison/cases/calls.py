"""Calls of the library from C, made by the library and worked out by the second program.

The library's part is the program driver/calls.c, which says how queries and answers are written.
The second program's answer to a query is told in the same form.
"""

import struct
from functools import cache
from typing import NamedTuple

from common.c_programs import CROSS_RUN, driver
from common.harness import Failure, run
from second import power, settlements
from second.power import TOTALS_NUMBERS
from second.settlements import LENT_BYTES, LINE_NUMBERS, OUTPUT_BYTES, Line

CHECK, SETTLE, POWER = 1, 2, 3
SAME_BOOK = 2**32 - 1

# The longest part that the driver lends, less the farthest it may lie from a guard page.
LONGEST_PART = 5 * 4096 - 15

NOTICE_BYTES = 3 * LENT_BYTES
LINE_BYTES = LINE_NUMBERS * OUTPUT_BYTES
TOTALS_BYTES = TOTALS_NUMBERS * OUTPUT_BYTES

# What the driver saw besides the answer, by its marks.
MARKS = {
    1: "the book was changed",
    2: "the list was changed",
    4: "bytes beside the output were changed",
    8: "memory outside was touched",
    16: "the references were changed",
    32: "bytes beside the totals were changed",
}


class Placing(NamedTuple):
    """Where the lent parts lie: just before a guard page or just behind one, and how many
    bytes off."""
    behind_guard: bool = False
    distance: int = 0

    def number(self):
        return self.behind_guard + 2 * self.distance


class Given(NamedTuple):
    """What a call gave: its answer, the driver's marks, and the bytes of the output and of the
    totals after it."""
    answer: int
    marks: int = 0
    output: bytes = b""
    totals: bytes = b""

    def number(self):
        return self.answer // 65_536

    def place(self):
        return self.answer % 65_536

    def lines(self, count, line=Line):
        """The first lines of the output, so many, or as many as there are."""
        count = min(count, len(self.output) // LINE_BYTES)
        whole = self.output[:count * LINE_BYTES]
        return tuple(line(*numbers) for numbers in struct.iter_unpack("<4Q", whole))

    def __repr__(self):
        seen = [f" ({text})" for mark, text in MARKS.items() if self.marks & mark]
        lines = self.lines(len(self.output))
        rest = self.output[len(lines) * LINE_BYTES:].hex()
        told = f"{self.number()},{self.place()}{''.join(seen)} {[*map(tuple, lines)]} {rest}"
        return f"{told} totals {self.totals.hex(' ', 8)}" if self.totals else told


class Check(NamedTuple):
    """A list check. The list is bytes; nothing else is lent."""
    winter: int
    profile: int
    listed: bytes
    placing: Placing = Placing()

    book = references = b""
    length = totals_length = 0

    def header(self):
        """The driver's call, winter and number, then the placing and fill."""
        return CHECK, self.winter, self.profile, self.placing.number(), 0

    def right(self):
        """What the second program gives."""
        return Given(settlements.check_call(self.winter, self.profile, self.listed))


class Settle(NamedTuple):
    """A settlement. The book and the list are bytes; the output has so many bytes, and what
    they are before the call follows from the fill."""
    winter: int
    book: bytes
    price: int
    listed: bytes
    length: int
    fill: int = 0
    placing: Placing = Placing()

    references = b""
    totals_length = 0
    line = Line

    def header(self):
        return SETTLE, self.winter, self.price, self.placing.number(), self.fill

    def right(self):
        """What the second program gives."""
        output = output_before(self.fill, self.length)
        answer, after = settlements.settle_call(
            self.winter, self.book, self.price, self.listed, output,
        )
        return Given(answer, 0, after)

    def __repr__(self):
        return (
            f"settle winter {self.winter}, book of {len(self.book)} bytes, price {self.price},"
            f" list of {len(self.listed)} bytes {self.listed.hex(' ', 4)},"
            f" output of {self.length} bytes, {self.placing}"
        )


class Power(NamedTuple):
    """A medium-power settlement. The book, the list and the references are bytes; output and totals
    have so many bytes, and what they are before the call follows from the fill."""
    winter: int
    book: bytes
    listed: bytes
    references: bytes
    length: int
    totals_length: int = TOTALS_BYTES
    fill: int = 0
    placing: Placing = Placing()

    line = power.Line

    def header(self):
        return POWER, self.winter, 0, self.placing.number(), self.fill

    def right(self):
        """What the second program gives."""
        outputs = (output_before(self.fill, one) for one in (self.length, self.totals_length))
        answer, *after = power.power_call(
            self.winter, self.book, self.listed, self.references, *outputs,
        )
        return Given(answer, 0, *after)

    def __repr__(self):
        return (
            f"power winter {self.winter}, book of {len(self.book)} bytes,"
            f" list of {len(self.listed)} bytes {self.listed.hex(' ', 4)},"
            f" references of {len(self.references)} bytes {self.references.hex(' ', 4)},"
            f" output of {self.length} bytes, totals of {self.totals_length}, {self.placing}"
        )


@cache
def output_pattern(fill):
    """The output's bytes before a call, as the driver makes them, in full length."""
    return bytes((fill + 37 * i) % 256 for i in range(256)) * (LONGEST_PART // 256 + 1)


def output_before(fill, length):
    return output_pattern(fill)[:length]


def written(queries):
    """Queries in the form the driver reads. A book that is lent twice running is written
    once."""
    pieces = []
    before = None
    for query in queries:
        same_book = query.book is before
        lengths = (
            len(query.listed), len(query.references), query.length, query.totals_length,
            SAME_BOOK if same_book else len(query.book),
        )
        pieces += [struct.pack("<10I", *query.header(), *lengths), query.listed, query.references]
        pieces += [] if same_book else [query.book]
        before = query.book
    return b"".join(pieces)


def ask(queries):
    """What the driver gives for these queries."""
    said = run(CROSS_RUN, driver("calls", "parts"), input=written(queries)).stdout
    given = []
    start = 0
    for query in queries:
        totals = start + 8 + query.length
        end = totals + query.totals_length
        if end > len(said):
            raise Failure(f"{len(given)} of {len(queries)} queries were answered")
        numbers = struct.unpack_from("<2I", said, start)
        given.append(Given(*numbers, said[start + 8:totals], said[totals:end]))
        start = end
    if start < len(said):
        raise Failure(f"{len(said) - start} bytes too many")
    return given


def both_of_calls(queries):
    """What the library and the second program give for these queries."""
    return ask(queries), [query.right() for query in queries]


# What was given for a case.


def is_settlement(query):
    return isinstance(query, Settle)


def lines_of(case, given):
    """The lines of an accepted settlement of either kind, none otherwise."""
    query = case.query
    accepted = isinstance(query, (Settle, Power)) and given.answer == 0
    return given.lines(len(query.listed) // NOTICE_BYTES, query.line) if accepted else ()


def totals_of(case, given):
    """The totals of an accepted medium-power settlement, none otherwise."""
    if not isinstance(case.query, Power) or given.answer != 0:
        return ()
    room = min(len(given.totals), TOTALS_BYTES) // OUTPUT_BYTES
    return struct.unpack_from(f"<{room}Q", given.totals)


def told(case, given):
    """Number and place, the totals, and as many lines as the case was built for."""
    answer = (given.number(), given.place(), *totals_of(case, given), *lines_of(case, given))
    return answer[:len(case.built_for)]
