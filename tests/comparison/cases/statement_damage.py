"""Ways to damage a text: its bytes, its lines, its numbers and its keys.

Some damage leaves a right text, some asks for another answer and most breaks the form; a
damage that always breaks the form of a line says so. `source` is a seeded random.Random
everywhere.
"""

import re

from second.statements import LARGEST_NUMBER, LONGEST_TEXT

NUMBER = re.compile(rb"[0-9]+")

# Bytes that the form uses, and some that look like them or that other programs pass over.
FORM_BYTES = b"0123456789=,\nwinterpcvsad"
OTHER_BYTES = b" \t\r\0\v\f;:+-.'\"_EWxe/\x7f\x80\x85\xa0\xb2\xff"
ANY_BYTES = FORM_BYTES + OTHER_BYTES

# Numbers at the edges of what is right in some field.
EDGE_NUMBERS = (
    0, 1, 5, 6, 7, 9, 10, 11, 15, 16, 17, 19, 20, 21, 22, 23, 24, 25, 29, 30, 31, 53, 62, 99, 100,
    101, 145, 148, 150, 151, 152, 153, 255, 256, 2009, 2010, 2027, 2098, 2099, 65_535, 65_536,
    999_999, 1_000_000, 1_000_001, 9_999_999, 10_000_000, 10_000_001, 178_956_971, 2**31 - 1,
    2**31, LARGEST_NUMBER - 1, LARGEST_NUMBER, LARGEST_NUMBER + 1, 2**32, 2**32 + 1, 2**63,
    2**64 - 1, 2**64, 10**19, 10**20 + 38, 10**40,
)


# Bytes.


def without_byte(text, at):
    """One byte deleted."""
    return text[:at] + text[at + 1:]


def with_byte_in(text, at, byte):
    """One byte inserted before the one at this position."""
    return text[:at] + bytes((byte,)) + text[at:]


def with_byte_changed(text, at, byte):
    """Another byte at this position."""
    return text[:at] + bytes((byte,)) + text[at + 1:]


def other_byte(source, byte):
    """A byte other than this one."""
    return source.choice([one for one in ANY_BYTES if one != byte])


# Lines.


def lines_of(text):
    """The lines of a text with the bytes that end them; what stands behind the last byte 10
    is a line as well."""
    *lines, rest = text.split(b"\n")
    return [line + b"\n" for line in lines] + ([rest] if rest else [])


def line_at(text, at):
    """The number of the line that has the byte at this position."""
    return text.count(b"\n", 0, at) + 1


def without_line(text, index):
    """One line missing."""
    lines = lines_of(text)
    return b"".join(lines[:index] + lines[index + 1:])


def with_line_twice(text, index):
    """One line doubled."""
    lines = lines_of(text)
    return b"".join(lines[:index + 1] + lines[index:])


def with_lines_swapped(text, one, other):
    """Two lines swapped."""
    lines = lines_of(text)
    lines[one], lines[other] = lines[other], lines[one]
    return b"".join(lines)


def with_line(text, index, line):
    """Another line in the place of one; it is given without its byte 10."""
    lines = lines_of(text)
    return b"".join([*lines[:index], line + b"\n", *lines[index + 1:]])


# Numbers.


def numbers_in(text):
    """Where the text has its numbers, as matches."""
    return list(NUMBER.finditer(text))


def with_number(text, found, digits):
    """The text with other bytes in the place of a number."""
    return text[:found.start()] + digits + text[found.end():]


def in_script(digits, zero):
    """A number in the digits of another script, as UTF-8; `zero` is the script's 0."""
    return "".join(chr(ord(zero) + int(digit)) for digit in digits.decode()).encode()


def wrong_numbers(digits):
    """Other spellings of a number, and numbers that are too large, some of them equal to it
    when cut to fewer bits. Each breaks the form of its line."""
    number = int(digits)
    spelt = (
        b"", b"0" + digits, b"00" + digits, b"0" * 5_000 + digits, b" " + digits, digits + b" ",
        b"\t" + digits, b"+" + digits, b"-" + digits, b"-0", b"\0" + digits, digits + b"\0",
        digits + b"\r", digits + b".0", digits + b"e0", b"0x" + digits, b"1_" + digits,
        digits + b",", b"," + digits, digits + b"=", b"=" + digits, b"a", b"\xb2",
        in_script(digits, "\u0660"), in_script(digits, "\uff10"),
    )
    large = (
        LARGEST_NUMBER + 1, 2**32, 2**32 + number, 10 * 2**32 + number, 2**63, 2**64 - 1, 2**64,
        2**64 + number, 2**128 + number, 99999999999999999999999,
    )
    digits_without_end = (b"9" * 5_000, b"1" + b"0" * 5_000, b"4294967294" * 500)
    return (*spelt, *(b"%d" % one for one in large), *digits_without_end)


# Keys.


def wrong_keys(line):
    """Other spellings of a line's key. Each breaks the line's form."""
    key, rest = line.split(b"=")
    other_number = key[:-1] if key.endswith(b"s") else key + b"s"
    return (
        b"=" + rest, rest, key, key + rest, key + b"==" + rest, key + b":" + rest,
        key + b" =" + rest, key + b"= " + rest, b" " + line, b"\t" + line, line + b" ",
        line + b"\r", line + b"\0", b"\0" + line, line + b";", line + b",", b"\xef\xbb\xbf" + line,
        key.upper() + b"=" + rest, key.capitalize() + b"=" + rest, key[1:] + b"=" + rest,
        key[:-1] + b"x=" + rest, other_number + b"=" + rest, b"\n" + line, b"x" + line,
        key[:3] + b"\0" + key[3:] + b"=" + rest, key + b"\xbd" + rest,
    )


# Random damage, for texts that are damaged several times. Each of these takes a text that
# is not empty.


def any_byte_gone(source, text):
    """A byte deleted."""
    return without_byte(text, source.randrange(len(text)))


def any_byte_in(source, text):
    """A byte inserted."""
    return with_byte_in(text, source.randint(0, len(text)), source.choice(ANY_BYTES))


def any_byte_changed(source, text):
    """A byte that is another one."""
    at = source.randrange(len(text))
    return with_byte_changed(text, at, other_byte(source, text[at]))


def any_bit_changed(source, text):
    """A bit of a byte turned round."""
    at = source.randrange(len(text))
    return with_byte_changed(text, at, text[at] ^ 1 << source.randrange(8))


def any_run_gone(source, text):
    """Some bytes running deleted."""
    start = source.randrange(len(text))
    return text[:start] + text[start + source.randint(1, 30):]


def any_run_twice(source, text):
    """Some bytes running doubled."""
    start = source.randrange(len(text))
    end = start + source.randint(1, 60)
    return text[:end] + text[start:end] + text[end:]


def cut_short(source, text):
    """The end missing."""
    return text[:source.randrange(len(text))]


def any_line_gone(source, text):
    """A line missing."""
    return without_line(text, source.randrange(len(lines_of(text))))


def any_line_twice(source, text):
    """A line doubled."""
    return with_line_twice(text, source.randrange(len(lines_of(text))))


def any_lines_swapped(source, text):
    """Two lines swapped."""
    count = len(lines_of(text))
    return with_lines_swapped(text, source.randrange(count), source.randrange(count))


def neighbours_swapped(source, text):
    """Two lines swapped that stand side by side."""
    at = source.randrange(len(lines_of(text)))
    return with_lines_swapped(text, max(0, at - 1), at)


def any_line_from(source, text):
    """A copy of any line, put anywhere."""
    lines = lines_of(text)
    lines.insert(source.randint(0, len(lines)), source.choice(lines))
    return b"".join(lines)


def any_number_changed(source, text, digits_of):
    """The text with what `digits_of` makes of one of its numbers, if it has one: half of the
    time one before the read lines, since these mostly have far more."""
    found = numbers_in(text)
    before = [one for one in found if one.start() < text.find(b"reads=")]
    if not found:
        return text
    chosen = source.choice(source.choice((before, found)) or found)
    return with_number(text, chosen, digits_of(chosen[0]))


def any_edge_number(source, text):
    """A number at some edge in the place of a number."""
    return any_number_changed(source, text, lambda _: b"%d" % source.choice(EDGE_NUMBERS))


def any_number_nudged(source, text):
    """A number made a little smaller or larger; a text has no numbers below 0."""
    step = source.choice((-2, -1, 1, 1, 2, 24))
    return any_number_changed(source, text, lambda digits: b"%d" % max(0, int(digits[:40]) + step))


def any_number_of_the_text(source, text):
    """A number in the place of another."""
    found = numbers_in(text)
    return any_number_changed(source, text, lambda _: source.choice(found)[0])


def any_wrong_number(source, text):
    """A wrong spelling of a number, or one that is too large."""
    return any_number_changed(
        source, text, lambda digits: source.choice(wrong_numbers(digits[:40]))
    )


DAMAGE = (
    any_byte_gone, any_byte_in, any_byte_changed, any_bit_changed, any_run_gone, any_run_twice,
    cut_short, any_line_gone, any_line_twice, any_lines_swapped, neighbours_swapped,
    any_line_from, any_wrong_number,
)
# Damage that mostly leaves the form.
CHANGES = (any_edge_number, any_edge_number, any_number_nudged, any_number_of_the_text)


def recounted(text):
    """The text with as many events and reads in its counts as it has such lines."""
    for count, line in ((rb"events", rb"event"), (rb"reads", rb"read")):
        number = len(re.findall(rb"^%b=" % line, text, re.MULTILINE))
        text = re.sub(rb"^%b=[0-9]+$" % count, b"%b=%d" % (count, number), text, flags=re.MULTILINE)
    return text


def spliced(source, text, other):
    """The beginning of one text and the end of another, cut between lines or anywhere."""
    if source.randrange(2):
        one, two = lines_of(text), lines_of(other)
        beginning = one[:source.randint(0, len(one))]
        return b"".join(beginning + two[source.randint(0, len(two)):])
    return text[:source.randint(0, len(text))] + other[source.randint(0, len(other)):]


def damaged(source, texts):
    """One of these texts, damaged once or several times. The counts are often set right
    again, or hardly a text with a changed number of lines would have the form."""
    text = source.choice(texts)
    if source.randrange(8) == 0:
        text = spliced(source, text, source.choice(texts))
    for _ in range(source.choice((1, 1, 2, 2, 3, 5))):
        ways = source.choice((DAMAGE, CHANGES, CHANGES))
        text = source.choice(ways)(source, text) if text else text
    if source.randrange(2):
        text = recounted(text)
    return text[:2 * LONGEST_TEXT]
