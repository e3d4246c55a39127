"""What stands in a text and in the program's answer to it, by lines. Nothing is judged here.

A line is asked for its numbers only where the answer says that it has the form: all lines of a
text that has a statement or another refusal than 30, and the lines before the place of a 30.
"""

from typing import NamedTuple

from words.moments import HOURS

# The lines before the first notice; `reads=` is the line behind the last one.
HEAD = 3


def numbers_of(line):
    """The numbers behind the key of a line."""
    return [int(number) for number in line.split(b"=")[1].split(b",")]


def shown(line):
    """A line as it can be printed, cut where it is long."""
    whole = repr(line)[2:-1]
    return whole if len(whole) <= 100 else f"{whole[:100]}.."


class Read(NamedTuple):
    """A line of readings: its number in the text, from 1, and what it says."""
    line: int
    day: int
    hour: int
    values: list

    @property
    def start(self):
        """The place of its first hour."""
        return HOURS * self.day + self.hour

    @property
    def end(self):
        """The place behind its last hour."""
        return self.start + len(self.values)


class Text:
    """The lines of a text. What stands behind the last newline is a line too, unfinished."""

    def __init__(self, text):
        self.lines = text.split(b"\n")
        self.is_finished = self.lines[-1] == b""
        if self.is_finished:
            self.lines.pop()

    def only_number(self, line):
        """The number of a line that has one; lines are counted from 1."""
        return numbers_of(self.lines[line - 1])[0]

    @property
    def winter(self):
        return self.only_number(1)

    @property
    def price(self):
        return self.only_number(2)

    @property
    def events(self):
        return self.only_number(HEAD)

    @property
    def reads_line(self):
        """Which line is `reads=`."""
        return HEAD + self.events + 1

    def notice_line(self, index):
        """Which line has the notice with this index, from 0."""
        return HEAD + 1 + index

    def notice(self, index):
        """Day, first hour and end of a notice."""
        return numbers_of(self.lines[self.notice_line(index) - 1])

    def read(self, line):
        """A line of readings."""
        day, hour, *values = numbers_of(self.lines[line - 1])
        return Read(line, day, hour, values)

    def reads(self):
        """All lines of readings."""
        return [self.read(line) for line in range(self.reads_line + 1, len(self.lines) + 1)]


class Line(NamedTuple):
    """What a statement says of a notice."""
    day: int
    start: int
    end: int
    code: int
    place: int
    energy: int
    cents: int

    @property
    def notice(self):
        return self.day, self.start, self.end


class Statement(NamedTuple):
    """The program's answer where the text is not refused."""
    winter: int
    price: int
    lines: list
    energy: int
    cents: int


class Refusal(NamedTuple):
    """The program's answer where it is."""
    number: int
    place: int


def answer_of(output):
    """What the program printed, as one of these two."""
    lines = output.splitlines()
    if lines[0].startswith(b"refused="):
        return Refusal(*numbers_of(lines[0]))
    winter, price, _, *rows, energy, cents = [numbers_of(line) for line in lines]
    return Statement(winter[0], price[0], [Line(*row) for row in rows], energy[0], cents[0])
