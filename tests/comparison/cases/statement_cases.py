"""The groups of texts that the program `statement` is compared on.

A group is a list of cases; most cases are built for an answer. Everything is drawn from one
seed, so the texts are the same in every run.
"""

import random
from functools import partial
from itertools import compress, pairwise, product

from cases import settlement_cases as calls
from cases.checks import ACCEPTED, Case
from cases.clock_calls import faults_beside_the_hour, lists_around_the_sunday
from cases.event_books import stepped_book
from cases.figures import sample_query
from cases.notice_lists import (
    FARTHEST, WAYS, a_few, hundred_notices, list_of_count, one_notice, open_days, spoil,
)
from cases.schedule_cases import WRONG_WINTERS
from cases.settlement_books import drawn_book
from cases.settlement_calls import (
    EDGE_PRICES, WRONG_PRICES, built_lines, drawn_price, level_case,
)
from cases.statement_damage import (
    ANY_BYTES, EDGE_NUMBERS, FORM_BYTES, damaged, line_at, lines_of, numbers_in, other_byte,
    with_byte_changed, with_byte_in, with_line, with_line_twice, with_lines_swapped,
    with_number, without_byte, without_line, wrong_keys, wrong_numbers,
)
from cases.statement_texts import (
    LINES_BEFORE_EVENTS, SAMPLE, SMALL, SMALLEST, Parts, Read, book_reads, drawn_parts,
    most_events, most_lines, needed_only, parts_of_size, text_of_call,
)
from second import winters
from second.energies import HIGHEST_READING, HOURS, MISSING
from second.notices import MOST_NOTICES
from second.statements import LARGEST_NUMBER, LONGEST_TEXT

SEED = 2026
BYTES_OF_THE_SAMPLE = 10
SWAPPED_PAIRS = 30
EDGES_OF_A_NUMBER = 7
RANDOM_TEXTS = 12
DAMAGED_TEXTS = 150

# Groups of settlements called from C, and how many texts are made of each.
CALLS = (
    ("small lists", calls.small_lists, 60),
    ("full lists", calls.full_lists, 50),
    ("level books", calls.level_books, 50),
    ("spoilt lists", calls.spoilt_lists, 120),
    ("100 notices spoilt at every place", calls.faults_at_every_place, 30),
    ("prices", calls.prices, 50),
    ("trials around the limit", calls.trials_around_the_limit, 50),
    ("faults at needed readings", calls.needed_faults, 50),
    ("faults at all readings not needed", calls.unneeded_faults, 25),
    ("books of one number", calls.even_books, 40),
    ("the largest energies", calls.largest_energies, 12),
    ("events on as many days as can be", calls.most_event_days, 30),
    ("faulty books", calls.faulty_books, 40),
    ("lists around the Sunday the clocks go forward", lists_around_the_sunday, 40),
    ("faults beside hour 2 of that Sunday", faults_beside_the_hour, 20),
)

# The sample's settlement. It lists just the readings that its event needs.
SAMPLE_NOTICE = (38, 6, 9)
SAMPLE_PRICE = 51_967

# What the largest number that the form allows does in each field of the small text.
BUILT_WITH_LARGEST = (
    (1, 0), (3, 0), (30, 5), (10, 0), (13, 0), (27, 0), (30, 7), (31, 6), (31, 6), ACCEPTED,
)


# Texts of settlements.


def texts_of_calls(make, count):
    """Texts that ask for the same as so many calls of a group."""
    source = random.Random(SEED)
    return [text_of_call(source, case) for case in source.sample(make(), count)]


def one_event():
    """One event in every winter, in a book that makes its line known."""
    source = random.Random(SEED)
    cases = []
    for winter in winters.WINTERS:
        listed = one_notice(source, winter, 1)
        cases.append(text_of_call(source, level_case(source, winter, listed, drawn_price(source))))
    return cases


def sample_parts(changes):
    """The sample with these values, by their places, over its own."""
    book = stepped_book(sample_query())
    for place, value in changes.items():
        book[place] = value
    return Parts(2026, SAMPLE_PRICE, [SAMPLE_NOTICE], book_reads(book))


def sample_places():
    """Where the sample's book has readings."""
    book = stepped_book(sample_query())
    return [place for place, reading in enumerate(book) if reading != MISSING]


def sample_faults():
    """Each reading of the sample left out, and each above the highest."""
    faults = ((21, MISSING), (22, HIGHEST_READING + 1))
    return [
        Case(sample_parts({place: value}).text(), built_lines([(code, place, 0)], SAMPLE_PRICE))
        for place in sample_places()
        for code, value in faults
    ]


# Texts cut, and damaged by a byte, a line or a field.


def cut_texts():
    """Small texts cut short at every position: the line that the cut is in is missing or
    unfinished."""
    return [
        Case(text[:length], (30, line_at(text, length)))
        for text in (SAMPLE, SMALL, SMALLEST)
        for length in range(len(text))
    ]


def damaged_bytes():
    """A byte deleted, inserted and changed: at every position of the small text, and here
    and there in the sample."""
    source = random.Random(SEED)
    texts = [
        *((SMALL, at) for at in range(len(SMALL))),
        *((SAMPLE, source.randrange(len(SAMPLE))) for _ in range(BYTES_OF_THE_SAMPLE)),
    ]
    cases = []
    for text, at in texts:
        digit = source.choice(b"0123456789")
        cases += [
            without_byte(text, at), with_byte_in(text, at, source.choice(ANY_BYTES)),
            with_byte_changed(text, at, digit),
            with_byte_changed(text, at, other_byte(source, text[at])),
        ]
    return [Case(text) for text in cases]


def damaged_lines():
    """Lines of the sample missing, doubled and swapped."""
    source = random.Random(SEED)
    lines = range(len(lines_of(SAMPLE)))
    pairs = [*pairwise(lines), *(source.sample(lines, 2) for _ in range(SWAPPED_PAIRS))]
    return [
        *(Case(without_line(SAMPLE, line)) for line in lines),
        *(Case(with_line_twice(SAMPLE, line)) for line in lines),
        *(Case(with_lines_swapped(SAMPLE, *pair)) for pair in pairs),
    ]


def damaged_numbers():
    """Every wrong spelling of every number of the small text."""
    return [
        Case(with_number(SMALL, found, wrong), (30, line_at(SMALL, found.start())))
        for found in numbers_in(SMALL)
        for wrong in wrong_numbers(found[0])
    ]


def edges_of_numbers():
    """The largest number in every field of the small text, and numbers at some edge in
    fields of the sample."""
    source = random.Random(SEED)
    largest = b"%d" % LARGEST_NUMBER
    cases = [
        Case(with_number(SMALL, found, largest), built_for)
        for found, built_for in zip(numbers_in(SMALL), BUILT_WITH_LARGEST, strict=True)
    ]
    for found in numbers_in(SAMPLE)[:10]:
        for number in source.sample(EDGE_NUMBERS, EDGES_OF_A_NUMBER):
            cases.append(Case(with_number(SAMPLE, found, b"%d" % number)))
    return cases


def winters_and_prices():
    """Winters and prices at the edges of what is right."""
    winter, price, *_ = numbers_in(SMALL)
    rows = (
        *((winter, number, ACCEPTED) for number in (winters.WINTERS[0], winters.WINTERS[-1])),
        *((winter, number, (1, 0)) for number in WRONG_WINTERS),
        *((price, number, ACCEPTED) for number in EDGE_PRICES),
        *((price, number, (3, 0)) for number in WRONG_PRICES),
    )
    return [
        Case(with_number(SMALL, found, b"%d" % number), built_for)
        for found, number, built_for in rows
        if number <= LARGEST_NUMBER
    ]


def damaged_keys():
    """Every wrong spelling of every line of the small text, a CR before each of its ends
    among them."""
    return [
        Case(with_line(SMALL, index, wrong), (30, index + 1))
        for index, line in enumerate(SMALL.splitlines())
        for wrong in wrong_keys(line)
    ]


# Counts.


def wrong_counts_of(text, key, index, count, behind):
    """The text with other counts in one line. `behind` is the number of the line behind those
    that are counted: with a count too large it is the first that is wrong, and with one less
    the line before it is."""
    for other in (count + 1, 2 * count + 2, LARGEST_NUMBER):
        yield Case(with_line(text, index, b"%b=%d" % (key, other)), (30, behind))
    if count:
        yield Case(with_line(text, index, b"%b=%d" % (key, count - 1)), (30, behind - 1))


def wrong_counts():
    """Counts of events and of reads, one too few, one too many and far too many."""
    source = random.Random(SEED)
    cases = []
    for events, reads in ((0, 0), (0, 1), (1, 0), (3, 24), (99, 1), (100, 24)):
        listed = list_of_count(source, 2026, 1, events, events)
        text = Parts(2026, 1, listed, [Read(day, 5, (7, 8)) for day in range(reads)]).text()
        of_reads = LINES_BEFORE_EVENTS + events
        end = len(lines_of(text))
        cases += wrong_counts_of(text, b"events", LINES_BEFORE_EVENTS - 1, events, of_reads + 1)
        cases += wrong_counts_of(text, b"reads", of_reads, reads, end + 1)
    return cases


def long_lists():
    """101 events and more, right ones and wrong ones; and 100."""
    source = random.Random(SEED)
    hundred = hundred_notices(source, 2026, 1)
    long = [(hundred * 50)[:count] for count in (101, 102, 128, 200, 256, 356, 1_000, 4_000)]
    wrong = [[(LARGEST_NUMBER, 0, 0)] * count for count in (101, 256, 1_000)]
    reads = [Read(31, 1, (5,))]
    return [
        Case(Parts(2026, 1, hundred, reads).text(), ACCEPTED),
        *(Case(Parts(2026, 1, listed, reads).text(), (4, 0)) for listed in (*long, *wrong)),
    ]


def right_value_counts():
    """Read lines of every number of values that the form allows."""
    return [
        Case(Parts(2026, 1, [], [Read(3, 0, tuple(range(count)))]).text(), ACCEPTED)
        for count in range(1, 25)
    ]


def wrong_number_counts():
    """Lines with too few numbers or too many."""
    numbers = {b"winter": (0, 2, 3), b"price": (0, 2), b"events": (0, 2), b"reads": (0, 2, 3)}
    numbers |= {b"event": (0, 1, 2, 4, 6), b"read": (0, 1, 2, 27, 28, 50, 300, 5_000)}
    cases = []
    for index, line in enumerate(SMALL.splitlines()):
        key, first = line.split(b",")[0].split(b"=")
        for count in numbers[key]:
            wrong = key + b"=" + b",".join([first, *[b"1"] * count][:count])
            cases.append(Case(with_line(SMALL, index, wrong), (30, index + 1)))
    return cases


# Read lines.


def right_reads(last):
    """Read lines that stand, as (day, hour, count), in a book with this last day."""
    return (
        [],
        [(0, 0, 1)],
        [(0, 0, 24)],
        [(0, 23, 1)],
        [(last, 0, 24)],
        [(last, 23, 1)],
        [(0, 0, 1), (last, 23, 1)],
        [(5, 3, 4), (5, 7, 1)],
        [(5, 3, 4), (5, 7, 17)],
        [(5, 0, 24), (6, 0, 24)],
        [(5, 23, 1), (6, 0, 1)],
        [(5, 0, 1), (6, 0, 1)],
        [(5, hour, 1) for hour in range(24)],
    )


def wrong_reads(last):
    """Read lines that do not stand, with the index of the first that is wrong."""
    return (
        ([(last + 1, 0, 1)], 0),
        ([(last + 1, 23, 2)], 0),
        ([(0, 24, 1)], 0),
        ([(0, 25, 1)], 0),
        ([(0, 23, 2)], 0),
        ([(0, 22, 3)], 0),
        ([(0, 1, 24)], 0),
        ([(last, 23, 2)], 0),
        ([(5, 3, 4), (5, 6, 1)], 1),
        ([(5, 3, 4), (5, 6, 18)], 1),
        ([(5, 3, 4), (5, 3, 4)], 1),
        ([(5, 3, 4), (5, 2, 1)], 1),
        ([(5, 3, 4), (5, 4, 1)], 1),
        ([(5, 0, 24), (5, 23, 1)], 1),
        ([(5, 23, 1), (5, 0, 1)], 1),
        ([(6, 0, 1), (5, 23, 1)], 1),
        ([(6, 0, 1), (5, 0, 1)], 1),
        ([(6, 5, 1), (5, 7, 1)], 1),
        ([(last, 23, 1), (last, 23, 1)], 1),
        ([(last, 23, 1), (last + 1, 0, 1)], 1),
        ([(5, 0, 1), (5, 1, 1), (5, 1, 1)], 2),
        ([(1, 0, 1), (9, 0, 1), (8, 23, 1), (10, 0, 1)], 2),
        ([(1, 0, 1), (9, 0, 1), (1, 1, 1)], 2),
        ([(0, 23, 2), (last + 1, 0, 1)], 0),
        ([(3, 0, 1), (3, 24, 1), (2, 0, 1)], 1),
        # 24 times day plus hour, or hour plus count, turn into small numbers in 32 bits.
        ([(178_956_971, 0, 1)], 0),
        ([(2**31, 0, 1)], 0),
        ([(2**29, 0, 1)], 0),
        ([(0, LARGEST_NUMBER, 1)], 0),
        ([(0, LARGEST_NUMBER, 2)], 0),
        ([(0, LARGEST_NUMBER, 24)], 0),
        ([(0, 2**32 - 8, 24)], 0),
        ([(LARGEST_NUMBER, LARGEST_NUMBER, 24)], 0),
        ([(256, 0, 1)], 0),
        ([(65_536, 0, 1)], 0),
        ([(0, 256, 1)], 0),
        ([(0, 65_536, 1)], 0),
    )


def reads_of(rows):
    """The read lines of these rows (day, hour, count)."""
    return [Read(day, hour, (9,) * count) for day, hour, count in rows]


def edges_of_reads():
    """Read lines at the edges of a day, of the book and of the one before, in winters of both
    lengths."""
    cases = []
    for winter, listed in ((2026, []), (2027, [SAMPLE_NOTICE])):
        last = len(winters.book_dates(winter)) - 1
        for rows in right_reads(last):
            cases.append(Case(Parts(winter, 1, listed, reads_of(rows)).text(), ACCEPTED))
        for rows, wrong in wrong_reads(last):
            parts = Parts(winter, 1, listed, reads_of(rows))
            cases.append(Case(parts.text(), (31, parts.read_line(wrong))))
    return cases


# First places.


def first_places():
    """Every number that is given with a place, at the first that it can have: the winter's hours
    last for 25 notices of four hours."""
    mornings = [(day, 6, 10) for day in open_days(2026, 1)[:26]]
    lists = (
        ([(29, 6, 9)], (10, 0)),
        ([(53, 6, 9)], (11, 0)),
        ([(38, 9, 6)], (13, 0)),
        ([(38, 10, 12)], (26, 0)),
        ([(38, 6, 11)], (27, 0)),
        ([(38, 6, 9), (38, 6, 9)], (15, 1)),
        ([(38, 6, 7), (38, 8, 9)], (16, 1)),
        (mornings, (18, 25)),
    )
    return [
        *(Case(Parts(2026, 1, listed, []).text(), built_for) for listed, built_for in lists),
        Case(b"winter:" + SMALLEST, (30, 1)),
        Case(Parts(2026, 1, [], [Read(152, 0, (1,))]).text(), (31, 5)),
    ]


# Several faults at once. Each of these brings in one fault, and gives what it is refused for
# if nothing before it in the order of refusals is wrong.


def wrong_notice(source, parts):
    """A wrong notice; all its numbers have the form."""
    while True:
        made = spoil(source, parts.winter, 1, parts.listed, source.choice(WAYS))
        if made and not any(FARTHEST in notice for notice in made[0]):
            listed, fault = made
            return parts._replace(listed=listed), fault


def long_list(source, parts):
    """More than 100 events."""
    count = source.choice((MOST_NOTICES + 1, MOST_NOTICES + 2, 2 * MOST_NOTICES, 300))
    return parts._replace(listed=(parts.listed * count)[:count]), (4, 0)


def wrong_price(source, parts):
    """A price out of range that has the form."""
    prices = [price for price in WRONG_PRICES if price <= LARGEST_NUMBER]
    return parts._replace(price=source.choice(prices)), (3, 0)


def wrong_read(source, parts):
    """A read line outside the book or the day, or not after the one before."""
    index = source.randrange(len(parts.reads))
    read = parts.reads[index]
    others = (
        read._replace(day=winters.LONGEST_BOOK // HOURS + source.randrange(3)),
        read._replace(hour=HOURS + 1 - len(read.values)),
        *parts.reads[:index][-1:],
    )
    reads = [*parts.reads[:index], source.choice(others), *parts.reads[index + 1:]]
    return parts._replace(reads=reads), (31, parts.read_line(index))


def wrong_winter(source, parts):
    """A winter out of range that has the form."""
    others = [winter for winter in WRONG_WINTERS if winter <= LARGEST_NUMBER]
    return parts._replace(winter=source.choice(others)), (1, 0)


def broken_form(source, text):
    """Any line with a byte too many."""
    lines = lines_of(text)
    index = source.randrange(len(lines))
    line = lines[index].removesuffix(b"\n") + source.choice((b" ", b",", b"x", b"\r"))
    return with_line(text, index, line), (30, index + 1)


def too_long(source, text):
    """Far too many bytes behind the text."""
    more = source.choice((b"\n", b"read=0,0,0\n", text))
    longer = text + more * (LONGEST_TEXT // len(more) + 1)
    return longer[:LONGEST_TEXT + source.choice((1, 2, len(more)))], (32, 0)


# In the order of a text's refusals, the last one first.
FAULTS_OF_PARTS = (wrong_notice, long_list, wrong_price, wrong_read, wrong_winter)
FAULTS_OF_TEXTS = (broken_form, too_long)


def with_faults(source, made, faults, built_for):
    """Parts or a text with these faults brought in one after the other, so that the last one
    decides."""
    for fault in faults:
        made, built_for = fault(source, made)
    return made, built_for


def several_faults():
    """Every choice of faults that a text can have at once."""
    source = random.Random(SEED)
    cases = []
    for flags in product((False, True), repeat=len(FAULTS_OF_PARTS) + len(FAULTS_OF_TEXTS)):
        of_parts = list(compress(FAULTS_OF_PARTS, flags))
        of_texts = list(compress(FAULTS_OF_TEXTS, flags[len(FAULTS_OF_PARTS):]))
        winter = source.choice(winters.WINTERS)
        listed = a_few(source, winter, 1)
        book = needed_only(winter, drawn_book(source, winter), listed)
        right = drawn_parts(source, winter, drawn_price(source), listed, book)
        parts, built_for = with_faults(source, right, of_parts, ACCEPTED)
        cases.append(Case(*with_faults(source, parts.text(), of_texts, built_for)))
    return cases


# Sizes.


def right_sizes():
    """Right texts just as long as a text may be, and nearly: 100 notices and a full book; and
    as many read lines as a winter has hours."""
    source = random.Random(SEED)
    sizes = (LONGEST_TEXT, LONGEST_TEXT - 1, 60_001)
    return [
        *(
            Case(parts_of_size(source, winter, size).text(), ACCEPTED)
            for winter, size in product((2010, 2026, 2027), sizes)
        ),
        *(Case(most_lines(source, winter).text(), ACCEPTED) for winter in (2026, 2027, 2098)),
    ]


def wrong_sizes():
    """Texts that are too long and right apart from that; and texts as long as may be, or
    longer, that are wrong otherwise as well."""
    source = random.Random(SEED)
    too_long = [parts_of_size(source, 2026, size).text() for size in (65_537, 65_538, 67_000)]
    longest = parts_of_size(source, 2027, LONGEST_TEXT).text()
    shorter = parts_of_size(source, 2027, LONGEST_TEXT - 1).text()
    end = len(lines_of(longest))
    long_number = b"winter=" + b"1" * LONGEST_TEXT
    return [
        *(Case(text, (32, 0)) for text in too_long),
        Case(longest + b"\n", (32, 0)),
        Case(longest + b"x", (32, 0)),
        Case(longest * 3, (32, 0)),
        Case(longest[:-1], (30, end)),
        Case(longest[:-1] + b"0", (30, end)),
        Case(longest[:-1] + b"0\n", (32, 0)),
        Case(shorter + b"\n", (30, len(lines_of(shorter)) + 1)),
        Case(shorter + b"0", (30, len(lines_of(shorter)) + 1)),
        Case(most_events().text(), (4, 0)),
        Case(SAMPLE + b"\n" * LONGEST_TEXT, (32, 0)),
        Case(SAMPLE + b"\0" * LONGEST_TEXT, (32, 0)),
        Case(SAMPLE + b"\n" * (LONGEST_TEXT - len(SAMPLE)), (30, len(lines_of(SAMPLE)) + 1)),
        Case(SAMPLE * (2 * LONGEST_TEXT // len(SAMPLE)), (32, 0)),
        Case(long_number[:LONGEST_TEXT], (30, 1)),
        Case(long_number[:LONGEST_TEXT + 1], (32, 0)),
        *(
            Case(byte * size, (32, 0) if size > LONGEST_TEXT else (30, 1))
            for byte in (b"\n", b"\0", b"0", b"w", b"\xff")
            for size in (LONGEST_TEXT - 1, LONGEST_TEXT, LONGEST_TEXT + 1, 2 * LONGEST_TEXT)
        ),
        Case(bytes(1_000_000), (32, 0)),
    ]


# Texts of other kinds.


def other_texts():
    """Nothing, next to nothing, and what is not a text at all."""
    source = random.Random(SEED)
    after_sample = len(lines_of(SAMPLE)) + 1
    first_line = (30, 1)
    return [
        Case(SAMPLE, (0, 0, (0, 0, 81_000, 234))),
        Case(SMALLEST, ACCEPTED),
        Case(b"", first_line),
        *(Case(bytes((byte,)), first_line) for byte in range(256)[::17]),
        *(Case(b"\n" * count, first_line) for count in (1, 2, 17, 100)),
        *(Case(b"\0" * count, first_line) for count in (1, 2, len(SAMPLE))),
        *(Case(SAMPLE + more, (30, after_sample)) for more in (
            b"\n", b"\n\n", b"\0", b" ", b"\r\n", b"0", b"read=39,1,5\n", b"\x1a", SAMPLE,
        )),
        *(Case(more + SAMPLE, first_line) for more in (
            b"\n", b" ", b"\0", b"\xef\xbb\xbf", b"#\n",
        )),
        Case(SAMPLE.replace(b"\n", b"\r\n"), first_line),
        Case(SAMPLE.replace(b"\n", b"\r"), first_line),
        Case(SAMPLE.replace(b"\n", b"\n\r"), (30, 2)),
        Case(SAMPLE.replace(b"\n", b"\n\n"), (30, 2)),
        Case(SAMPLE.replace(b"\n", b"\0"), first_line),
        Case(SAMPLE.replace(b"\n", b""), first_line),
        Case(SAMPLE.upper(), first_line),
        Case(SAMPLE.replace(b"=", b" = "), first_line),
        Case(SAMPLE.replace(b",", b", "), (30, 4)),
        Case(SAMPLE.replace(b",", b";"), (30, 4)),
        Case(SAMPLE.decode().encode("utf-16"), first_line),
        Case(bytes(byte | 128 for byte in SAMPLE), first_line),
        *(
            Case(bytes(source.choices(kind, k=source.randrange(1, most))))
            for kind in (range(256), ANY_BYTES, FORM_BYTES, b"0123456789,=\n")
            for most in [40, 400, 4_000, LONGEST_TEXT] * (RANDOM_TEXTS // 4)
        ),
    ]


def damaged_texts():
    """Texts damaged once or several times, the largest among them now and then."""
    source = random.Random(SEED)
    small = [SAMPLE, SMALL, SMALLEST, *(case.query for case in texts_of_calls(calls.prices, 3))]
    listed = hundred_notices(source, 2026, 1)
    small.append(drawn_parts(source, 2026, 50_000, listed, drawn_book(source, 2026)).text())
    texts = [*small[:3] * 5, *small[3:]]
    return [Case(damaged(source, texts)) for _ in range(DAMAGED_TEXTS)]


GROUPS = (
    ("one event in every winter", one_event),
    *((name, partial(texts_of_calls, make, count)) for name, make, count in CALLS),
    ("each reading of the sample missing or too high", sample_faults),
    ("small texts cut short at every position", cut_texts),
    ("a byte deleted, inserted or changed", damaged_bytes),
    ("lines missing, doubled and swapped", damaged_lines),
    ("wrong numbers in every field", damaged_numbers),
    ("numbers at the edges", edges_of_numbers),
    ("winters and prices at the edges", winters_and_prices),
    ("wrong keys and line ends", damaged_keys),
    ("wrong counts of events and reads", wrong_counts),
    ("more than 100 events", long_lists),
    ("1 to 24 values", right_value_counts),
    ("lines with too few numbers or too many", wrong_number_counts),
    ("read lines at the edges", edges_of_reads),
    ("numbers at the first place they can have", first_places),
    ("several faults at once", several_faults),
    ("the longest texts that are right", right_sizes),
    ("texts too long, or long and wrong", wrong_sizes),
    ("other texts", other_texts),
    ("texts damaged several times", damaged_texts),
)
