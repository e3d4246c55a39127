"""The library's call on a text, made from C with outputs of many lengths.

The library's part is the program driver/texts.c, which says how queries and answers are written. It
needs the call under the name probe_statement (driver/probe.h).
"""

import random
import struct
from itertools import product
from typing import NamedTuple

from cases.checks import Case, check_built, check_group
from cases.statement_cases import first_places, long_lists, other_texts
from cases.statement_texts import SAMPLE, SMALL, SMALLEST, most_lines, parts_of_size
from common.c_programs import CROSS_RUN, driver
from common.harness import Failure, run
from second import statements
from second.statements import LONGEST_TEXT, ROOM

SEED = 2026

# Outputs that are too short: none, a few bytes, what a refusal and what the sample's statement
# would take, and up to one byte less than is asked for. And outputs that are not.
SHORT_OUTPUTS = (0, 1, 8, 13, 14, 71, 72, 256, 4_096, 20_000, ROOM - 1)
OUTPUTS = (ROOM, ROOM + 1, ROOM + 100, 24_576)


class TextCall(NamedTuple):
    """The call on a text, with an output of so many bytes."""
    text: bytes
    length: int


class Given(NamedTuple):
    """What a call gave: its answer, the driver's marks, and the output's bytes after it."""
    answer: int
    marks: int
    output: bytes


def output_before(length):
    return bytes(37 * i % 256 for i in range(length))


def ask(queries):
    """What the driver gives for these queries."""
    lent = b"".join(struct.pack("<2I", len(text), length) + text for text, length in queries)
    said = run(CROSS_RUN, driver("texts", "parts", crate="probe"), input=lent).stdout
    given = []
    for _, length in queries:
        if len(said) < 8 + length:
            raise Failure(f"{len(given)} of {len(queries)} queries were answered")
        given.append(Given(*struct.unpack_from("<2I", said), said[8:8 + length]))
        said = said[8 + length:]
    if said:
        raise Failure(f"{len(said)} bytes too many")
    return given


def right(query):
    """What the second program gives."""
    answer, after = statements.text_call(query.text, output_before(query.length))
    return Given(answer, 0, after)


def both_of_text_calls(queries):
    """What the library and the second program give for these queries."""
    return ask(queries), [right(query) for query in queries]


def texts():
    """Texts with short answers and with the longest, refused ones and one that is too long."""
    source = random.Random(SEED)
    some = [*first_places(), *long_lists()[:3], *other_texts()[:12]]
    return [
        SAMPLE, SMALL, SMALLEST, most_lines(source, 2027).text(),
        parts_of_size(source, 2026, LONGEST_TEXT).text(), SAMPLE[:-1], b"\n" * (LONGEST_TEXT + 1),
        *(case.query for case in some),
    ]


def text_calls():
    """Each of these texts with outputs of all these lengths. In a short one nothing changes."""
    return [
        *(
            Case(TextCall(text, length), Given(0, 0, output_before(length)))
            for text, length in product(texts(), SHORT_OUTPUTS)
        ),
        *(Case(TextCall(text, length)) for text, length in product(texts(), OUTPUTS)),
    ]


def check_outputs():
    """Short outputs get the answer 0 and stay as they are; others get the statement."""
    answered = []
    check_group(text_calls, both_of_text_calls, answered)
    check_built(lambda case, given: given, answered)
