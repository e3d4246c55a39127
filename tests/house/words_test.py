"""Tests `scripts/statement --words`: the statement for a person.

The pages of the examples stand beside them. Every figure, date and line number of a page is held
to the second program and the text (word_pages.py); many damaged texts are tried so, with the
second program's answer in place of the proved program's.
The last line printed is "N passed, M failed".
"""

import random
from functools import partial

import reach
from common.harness import ROOT, Failure, ended, run_tests, scratch
from damage import damaged
from second import numbers
from second.statements import statement
from word_pages import check_page
from words import refusals, statements
from words.pages import page_of
from words.texts import Refusal, Text, answer_of

SCRIPT = ROOT / "scripts" / "statement"
EXAMPLES = sorted((ROOT / "examples").glob("*.txt"))
SAMPLE = (ROOT / "examples" / "winter.txt").read_bytes()
JANUARY = (ROOT / "examples" / "january.txt").read_bytes()

SEED = 2026
DAMAGED = 10_000


def changed(old, new):
    """The sample with some of it replaced, once."""
    if SAMPLE.count(old) != 1:
        raise ValueError(f"{old} stands {SAMPLE.count(old)} times in the sample")
    return SAMPLE.replace(old, new)


# A mistake in the sample, and the sentence that its page has.
MISTAKES = (
    (
        "the same notice twice",
        changed(b"events=1\nevent=38,6,9\n", b"events=2\nevent=38,6,9\nevent=38,6,9\n"),
        "line 5: the notice of Wednesday, 9 December 2026, 6:00 to 9:00, starts before the one"
        " before it ends; is it there twice?",
    ),
    (
        "two notices of a morning",
        changed(b"events=1\nevent=38,6,9\n", b"events=2\nevent=38,6,7\nevent=38,8,9\n"),
        "line 5: the notice of Wednesday, 9 December 2026, 8:00 to 9:00, is in the same morning or"
        " evening as the one before it, 6:00 to 7:00; only one of them stands",
    ),
    (
        "lines that end in bytes 13 and 10",
        SAMPLE.replace(b"\n", b"\r\n"),
        "line 1: winter=Y is due, and it ends in byte 13, as some editors write lines;"
        " tr -d '\\r' <FILE >NEW takes these out",
    ),
    (
        "a decimal comma in the price",
        changed(b"51967", b"51,967"),
        "line 2: price=p is due, and the price of a kWh is in thousandths of a cent, without point"
        " or comma: 51.967 cents are 51967",
    ),
    (
        "a day of the month",
        changed(b"event=38", b"event=9"),
        "line 4: the notice of Tuesday, 10 November 2026, 6:00 to 9:00, is outside the winter"
        " period, 1 December to 31 March; days are counted from 1 November, which is 0;"
        " is it a day of a month?",
    ),
    (
        "start and end swapped",
        changed(b"event=38,6,9", b"event=38,9,6"),
        "line 4: the notice of Wednesday, 9 December 2026, 9:00 to 6:00, does not end after it"
        " starts; are the two swapped?",
    ),
    (
        "hours counted from noon",
        changed(b"event=38,6,9", b"event=38,4,6"),
        "line 4: the notice of Wednesday, 9 December 2026, 4:00 to 6:00, has no hour in a band,"
        " 6:00 to 10:00 or 16:00 to 20:00; hours are counted to 24, and 5:00 in the afternoon"
        " is 17",
    ),
    (
        "a mistyped start",
        changed(b"event=38,6,9", b"event=38,1,9"),
        "line 4: the notice of Wednesday, 9 December 2026, 1:00 to 9:00, has hours in a band,"
        " 6:00 to 10:00 or 16:00 to 20:00, but not all in one; is its start or its end mistyped?",
    ),
    (
        "decimal commas in readings, refused",
        changed(b"31,1,2000,2000,2000", b"31,1,2000,5,2000,5,2000,5"),
        "line 7: the readings of Wednesday, 2 December 2026 from 6:00 on begin before those of the"
        " line before end; is it there twice, out of order, or does a comma stand inside a number?",
    ),
    (
        "decimal commas in readings, taken",
        changed(b"31,6,2000,2000,2000", b"31,6,2000,5,2000,5,2000,5"),
        "line 7: 2000 and 5 stand side by side; was a decimal comma typed?"
        " Each comma begins the next hour's reading",
    ),
    (
        "the price in cents",
        changed(b"price=51967", b"price=52"),
        "line 2: the price is 0.052 cents per kWh, under one cent;"
        " it is written in thousandths of a cent, as 51967 for 51.967 cents",
    ),
    (
        "a wrong winter",
        changed(b"winter=2026", b"winter=2027"),
        "line 1: every event lacks a reading; is 2027 the right winter, the year of its December,"
        " and is 1 November counted as day 0?",
    ),
    (
        "a day that spared nothing",
        changed(b"38,6,1000,1000,1000", b"38,6,9000,9000,9000"),
        "line 4: Wednesday, 9 December 2026, 6:00 to 9:00, is settled and spared nothing;"
        " are the day and the readings right?",
    ),
    (
        "a meter's counter",
        changed(b"38,6,1000,1000,1000", b"38,6,1000,10000001,1000"),
        "line 4: Wednesday, 9 December 2026, 6:00 to 9:00: not settled (22): the reading of"
        " Wednesday, 9 December 2026, 7:00 to 8:00, in line 17 is 10000001 Wh, above 10,000,000;"
        " is it a meter's counter, or in another unit?",
    ),
    (
        "no newline at the end",
        SAMPLE[:-1],
        "line 17: the text ends in it, without a newline behind it",
    ),
)


# Pages of the script.


def page_printed(text):
    """What the script prints for a text, by lines, held to the second program."""
    done = ended(SCRIPT, "--words", input=text)
    if done.stderr:
        raise Failure(f"on standard error: {done.stderr.decode()}")
    page = done.stdout.decode().splitlines()
    right = check_page(text, page)
    if done.returncode != right:
        raise Failure(f"exit status {done.returncode}, not {right}")
    return page


def check_example(path):
    """The page of an example is the one beside it."""
    if page_printed(path.read_bytes()) != path.with_suffix(".words").read_text().splitlines():
        raise Failure(f"{path.stem}.words is another page")


def check_mistake(text, sentence):
    """The page of a mistake has its sentence."""
    page = page_printed(text)
    if sentence not in page:
        raise Failure(f"it says {page}")


def check_plain():
    """Without --words a refused text has exit status 0, and every answer is its lines alone."""
    for _, text, _ in MISTAKES:
        done = ended(SCRIPT, input=text)
        if (done.returncode, done.stdout, done.stderr) != (0, statement(text), b""):
            raise Failure(f"exit status {done.returncode}: {done.stdout!r}")


def check_file():
    """A text is taken by its name too; a wrong use has exit status 2."""
    path = scratch() / "text"
    path.write_bytes(SAMPLE)
    for arguments, right in (([path], 0), (["no such file"], 2), ([path, path], 2)):
        done = ended(SCRIPT, "--words", *arguments, cwd=scratch())
        if done.returncode != right:
            raise Failure(f"exit status {done.returncode}, not {right}")


# Many texts, with the second program's answer.


def check_answered(text):
    """The page of the second program's answer; gives the number and the codes in it."""
    answer = answer_of(statement(text))
    check_page(text, page_of(Text(text), answer))
    if isinstance(answer, Refusal):
        return {answer.number}
    return {0, *(line.code for line in answer.lines)}


def check_damaged():
    """Many texts, damaged; all that such texts can get turned up."""
    source, turned_up = random.Random(SEED), set()
    for _ in range(DAMAGED):
        turned_up |= check_answered(damaged(source, source.choice((SAMPLE, JANUARY))))
    left = {*numbers.TEXT["text"], *numbers.TEXT["line"]} - turned_up - {4, 16, 18, 32}
    if left:
        raise Failure(f"never given: {sorted(left)}")


def check_long():
    """Texts that are refused for being long: notices, hours, bytes."""
    head = b"winter=2026\nprice=1\nevents=%d\n%breads=0\n"
    mornings = b"".join(b"event=%d,6,10\n" % day for day in range(63, 89))
    for number, text in (
        (4, head % (101, 101 * b"event=38,6,9\n")),
        (18, head % (26, mornings)),
        (32, SAMPLE + bytes(65_536)),
    ):
        if check_answered(text) != {number}:
            raise Failure(f"a text is not refused with {number}")


def check_all_numbers():
    """Every number that a text can get has words, and every code, 20 too, which none gets."""
    given = {*refusals.OF_TEXT, *refusals.OF_NOTICE}
    if given != {*numbers.TEXT["text"]} - {0} or {*statements.CODES} != {*numbers.CODES}:
        raise Failure(f"words for {sorted(given)} and {sorted(statements.CODES)}")


TESTS = [
    *((f"the page of examples/{path.name}", partial(check_example, path)) for path in EXAMPLES),
    *((f"a mistake: {name}", partial(check_mistake, *mistake)) for name, *mistake in MISTAKES),
    ("without --words all is as it was", check_plain),
    ("a text by its name, and wrong uses", check_file),
    ("words for every number and code", check_all_numbers),
    ("damaged texts", check_damaged),
    ("texts that are too long", check_long),
]


if __name__ == "__main__":
    run_tests(TESTS)
