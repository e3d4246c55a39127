"""Compares the program `statement` with the second program on random texts, for a given time.

    cd tests/comparison && python3 -m fuzz.statement SECONDS [SEED [COMMAND ..]]

Texts are damaged several times, or spliced from two, and then given to both. What is printed
at the end is how often each refusal number was given. On a difference the text is written to
a file, which is named, and the exit status is 1. Without a seed the time gives one; it is
printed, and the same seed makes the same texts.

The program runs by scripts/program, in an emulator where the processor is not x86-64. Another
command that reads a text and prints its statement, such as a build for this machine's own
processor, is several times as fast: its words stand behind the seed.

This is no part of the gate, and prints no "N passed" line.
"""

import random
import sys
import tempfile
import time
from collections import Counter
from concurrent.futures import ThreadPoolExecutor
from functools import partial
from itertools import islice

import reach
from cases.notice_lists import SHAPES
from cases.settlement_books import drawn_book, lowered
from cases.settlement_calls import drawn_price
from cases.statement_damage import damaged
from cases.statement_runs import AT_A_TIME, read_statement, said_and_right
from cases.statement_texts import (
    SAMPLE, SMALL, SMALLEST, drawn_parts, most_lines, needed_only, parts_of_size,
)
from common.harness import Failure
from second import winters
from second.statements import statement

TEXTS_AT_ONCE = 50
NEW_TEXTS_EVERY = 500
SMALL_TEXTS = 40
LARGE_TEXTS = 4

SHAPES_OF_PROFILE_1 = [shape for shape, profiles in SHAPES if 1 in profiles]


def drawn_text(source, small):
    """A right text of any winter and any shape of list; a small one lists no readings but
    those needed."""
    winter = source.choice(winters.WINTERS)
    listed = source.choice(SHAPES_OF_PROFILE_1)(source, winter, 1)
    book = lowered(source, drawn_book(source, winter), listed)
    if small:
        book = needed_only(winter, book, listed)
    return drawn_parts(source, winter, drawn_price(source), listed, book).text()


def right_texts(source):
    """Texts to damage, mostly small ones, since a damage to these matters more."""
    return [
        SAMPLE, SMALL, SMALLEST,
        *(drawn_text(source, True) for _ in range(SMALL_TEXTS)),
        *(drawn_text(source, False) for _ in range(LARGE_TEXTS)),
        most_lines(source, 2027).text(),
        parts_of_size(source, 2026, source.randint(65_500, 65_540)).text(),
    ]


def texts_without_end(source):
    """Damaged texts; what they are damaged from changes now and then. Some are right."""
    while True:
        texts = right_texts(source)
        yield from texts
        for _ in range(NEW_TEXTS_EVERY):
            yield damaged(source, texts)


def both_answers(text, command):
    """What the program prints for a text, or how it failed, and what the second program
    prints."""
    try:
        return said_and_right(text, command)
    except Failure as failure:
        return f"{failure}", statement(text)


def kept(text):
    """The name of a new file that has the text."""
    with tempfile.NamedTemporaryFile(prefix="statement-", suffix=".txt", delete=False) as file:
        file.write(text)
    return file.name


def compare(text, printed, right):
    """Names the text and ends all, if the two are not the same."""
    if printed != right:
        print(f"they differ on {kept(text)}\n  program        {printed}\n  second program {right}")
        sys.exit(1)


def fuzz(seconds, seed, command):
    """How often each number was given in this time."""
    end = time.monotonic() + seconds
    texts = texts_without_end(random.Random(seed))
    tally = Counter()
    with ThreadPoolExecutor(AT_A_TIME) as pool:
        while time.monotonic() < end:
            some = list(islice(texts, TEXTS_AT_ONCE))
            for text, both in zip(some, pool.map(partial(both_answers, command=command), some)):
                compare(text, *both)
                tally[read_statement(both[0]).number] += 1
    return tally


def main(seconds, seed=None, *command):
    """Compares for so many seconds and prints the counts."""
    seed = int(seed or time.time())
    print(f"seed {seed}", flush=True)
    tally = fuzz(float(seconds), seed, command)
    numbers = "  ".join(f"{number}: {count}" for number, count in sorted(tally.items()))
    print(f"{tally.total()} texts:  {numbers}")


if __name__ == "__main__":
    if len(sys.argv) < 2:
        sys.exit(__doc__)
    main(*sys.argv[1:])
