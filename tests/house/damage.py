"""Texts as people and programs spoil them: other bytes, other numbers, other lines."""

import re

PIECES = (
    b"", b"0", b"1", b"9", b",", b",,", b".", b"-", b" ", b"\r", b"\n", b"=", b"x", b"38",
    b"4294967295", b"\xef\xbb\xbf", b"\xff",
)

# Hours, days and winters at edges, and numbers that are no reading.
NUMBERS = (
    0, 1, 5, 6, 9, 16, 20, 24, 29, 53, 55, 61, 101, 145, 150, 151, 152, 2098, 10_000_001,
    4_294_967_294,
)


def with_other_bytes(source, text):
    """A text with some bytes in place of one, or between two."""
    at = source.randrange(len(text) + 1)
    return text[:at] + source.choice(PIECES) + text[at + source.choice((0, 1)):]


def with_other_number(source, text):
    """A text with another number in place of one."""
    found = source.choice([*re.finditer(rb"\d+", text)] or [re.match(b"", text)])
    number = str(source.choice(NUMBERS)).encode()
    return text[:found.start()] + number + text[found.end():]


def with_other_hours(source, text):
    """A text with other hours in place of a notice's, where it has one."""
    found = [*re.finditer(rb"(?m)^event=\d+,(\d+,\d+)$", text)]
    if not found:
        return text
    start, end = source.choice(found).span(1)
    hours = b"%d,%d" % (source.choice(NUMBERS), source.choice(NUMBERS))
    return text[:start] + hours + text[end:]


def with_other_lines(source, text):
    """A text with a line twice, gone, or in another place."""
    lines = text.splitlines(keepends=True) or [b""]
    one, other = source.randrange(len(lines)), source.randrange(len(lines))
    way = source.choice(("twice", "gone", "moved"))
    taken = lines[one] if way == "twice" else lines.pop(one)
    lines[other:other] = [] if way == "gone" else [taken]
    return b"".join(lines)


WAYS = (with_other_bytes, with_other_number, with_other_hours, with_other_lines)


def damaged(source, text):
    """A text damaged once or twice."""
    for _ in range(source.choice((1, 1, 2))):
        text = source.choice(WAYS)(source, text)
    return text
