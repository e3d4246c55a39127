"""The line at which a text breaks the form: what is due there, and what can be seen in it.

That the line breaks the form is the program's answer, and that no line before it does.
"""

import re

from words.texts import HEAD

LARGEST_NUMBER = 4_294_967_294
MOST_DIGITS = 10

# The lines before the first notice, by key, with what they hold.
FIRSTS = ((b"winter", "winter=Y"), (b"price", "price=p"), (b"events", "events=n"))
EVENT = (b"event", "event=day,s,e")
READS = (b"reads", "reads=m")
READ = (b"read", "read=day,hour,v,..")

# The fewest and the most numbers of a line; of any other it is one.
COUNTS = {b"event": (3, 3), b"read": (3, 26)}

# What may have brought a line that is due and not there.
TOO_HIGH = {b"event": "; does events= count too many?", b"read": "; does reads= count too many?"}

# What can be seen in a line, the likeliest first.
SEEN = (
    (rb"\r$", "it ends in byte 13, as some editors write lines;"
              " tr -d '\\r' <FILE >NEW takes these out"),
    (rb"^\xef\xbb\xbf", "it begins with a byte order mark, which some editors write;"
                        " save the text without it"),
    (rb"^$", "it is empty"),
    (rb"\s", "it has a blank, and there are none in a text"),
    (rb"[-+]", "it has a sign; a missing reading has no mark, its hour is left out"),
    (rb"^price=.*[.,]", "the price of a kWh is in thousandths of a cent, without point or comma:"
                        " 51.967 cents are 51967"),
    (rb"=.*\.", "it has a decimal point; readings are in whole Wh"),
    (rb"[=,](?:,|$)", "a number is missing; a missing reading has no mark, its hour is left out"),
    (rb"[=,]0[0-9]", "a number begins with 0"),
)


def due_at(text, place):
    """The key and the form of the line that is due here, None behind the last one."""
    if place <= HEAD:
        return FIRSTS[place - 1]
    if place < text.reads_line:
        return EVENT
    if place == text.reads_line:
        return READS
    if place <= text.reads_line + text.only_number(text.reads_line):
        return READ
    return None


def numbers_seen(line, key):
    """What can be seen in the numbers of a line that has the key."""
    numbers = line.split(b"=", 1)[1].split(b",")
    if not all(number.isdigit() for number in numbers):
        return "it has something else than numbers"
    if any(len(number) > MOST_DIGITS or int(number) > LARGEST_NUMBER for number in numbers):
        return f"a number is above {LARGEST_NUMBER}"
    least, most = COUNTS.get(key, (1, 1))
    bound = f"at least {least}" if len(numbers) < least else f"at most {most}"
    return f"it has {len(numbers)} numbers where {bound} are due"


def seen_in(line, key):
    """What can be seen in a line that breaks the form."""
    for pattern, words in SEEN:
        if re.search(pattern, line):
            return words
    if not line.startswith(key + b"="):
        return f"it is another line{TOO_HIGH.get(key, '')}"
    return numbers_seen(line, key)


def form_broken(text, place):
    """30."""
    due = due_at(text, place)
    if due is None:
        return (
            f"line {place}: the text goes on behind its last line;"
            " does reads= count too few, or is the line empty?"
        )
    key, form = due
    if place > len(text.lines):
        return f"line {place}: the text ends before it; {form} is due{TOO_HIGH.get(key, '')}"
    if place == len(text.lines) and not text.is_finished:
        return f"line {place}: the text ends in it, without a newline behind it"
    return f"line {place}: {form} is due, and {seen_in(text.lines[place - 1], key)}"
