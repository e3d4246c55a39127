"""A statement for a person: dates and weekdays, kWh and dollars, each code in a sentence."""

from bisect import bisect_left

from words.moments import event_in_words, place_in_words

# Energies are in eighteenths of a Wh.
PARTS = 18


def kwh(energy):
    """An energy in kWh with three decimals, the last one rounded, halves up."""
    watt_hours = (2 * energy + PARTS) // (2 * PARTS)
    return f"{watt_hours // 1000:,}.{watt_hours % 1000:03} kWh"


def dollars(cents):
    """Cents as dollars."""
    return f"{cents // 100:,}.{cents % 100:02} dollars"


def cents_per_kwh(price):
    """A price, which is in thousandths of a cent."""
    return f"{price // 1000:,}.{price % 1000:03} cents per kWh"


def winter_in_words(winter):
    """A winter by both its years."""
    return f"{winter}/{(winter + 1) % 100:02}"


# The lines.


def settled(text, line):
    """0."""
    return f"{kwh(line.energy)} spared, {dollars(line.cents)}"


def few_days(text, line):
    """20."""
    return "not settled (20): there are fewer than five reference days before it"


def missing(text, line):
    """21: which reading, and where in the text it belongs."""
    reads = text.reads()
    before = bisect_left([read.start for read in reads], line.place)
    after = text.reads_line + before
    where = place_in_words(text.winter, line.place)
    return f"not settled (21): the reading of {where}, is missing; it belongs behind line {after}"


def too_large(text, line):
    """22: which reading, and where in the text it stands."""
    read = next(read for read in text.reads() if read.start <= line.place < read.end)
    value = read.values[line.place - read.start]
    where = place_in_words(text.winter, line.place)
    return (
        f"not settled (22): the reading of {where}, in line {read.line} is {value} Wh,"
        " above 10,000,000; is it a meter's counter, or in another unit?"
    )


CODES = {0: settled, 20: few_days, 21: missing, 22: too_large}


def line_in_words(text, index, line):
    """A notice, by its line in the text, and how it was settled."""
    about = event_in_words(text.winter, line.notice)
    return f"line {text.notice_line(index)}: {about}: {CODES[line.code](text, line)}"


def page(text, statement):
    """The lines that a person reads."""
    count = len(statement.lines)
    notices = f"{count} notice{'' if count == 1 else 's'}"
    price = cents_per_kwh(statement.price)
    yield f"Winter {winter_in_words(statement.winter)} at {price}, {notices}"
    for index, line in enumerate(statement.lines):
        yield line_in_words(text, index, line)
    yield f"together: {kwh(statement.energy)} spared, {dollars(statement.cents)}"
    if any(line.energy % PARTS for line in statement.lines):
        yield "(kWh are rounded to the third decimal; the cents are those of the exact energies.)"
