"""A refused text in a sentence that names the line, the date and the hour.

That the text is refused, by which number and at which place, is the program's answer. Where a
number has several causes, what stands at the place tells which one it is.
"""

from words.forms import form_broken
from words.moments import HOURS, day_in_words, event_in_words, hours_in_words, last_day
from words.texts import HEAD, shown


# Lines of readings.


def read_misplaced(text, place):
    """31: outside the book, outside its day, or not after the line before."""
    read = text.read(place)
    readings = f"line {place}: the readings of {day_in_words(text.winter, read.day)}"
    if read.day > last_day(text.winter):
        return f"{readings}, are outside the book"
    if read.hour >= HOURS:
        return (
            f"{readings} begin at hour {read.hour}; hours are 0 to 23, and hour 24 is hour 0 of"
            " the next day"
        )
    if read.hour + len(read.values) > HOURS:
        return (
            f"{readings} begin at {read.hour}:00 and are {len(read.values)}, so they run past"
            " midnight; the next day's begin a line of their own, or a comma stands inside a number"
        )
    return (
        f"{readings} from {read.hour}:00 on begin before those of the line before end;"
        " is it there twice, out of order, or does a comma stand inside a number?"
    )


# The winter, the price, the lengths.


def wrong_winter(text, _):
    """1."""
    return (
        f"line 1: winter {text.winter} is outside 2010 to 2098;"
        " a winter is named by the year of its December"
    )


def wrong_price(text, _):
    """3."""
    return (
        f"line 2: the price {text.price} is outside 1 to 1,000,000 thousandths of a cent per kWh;"
        " 51.967 cents are 51967"
    )


def too_many_notices(text, _):
    """4."""
    return (
        f"line {HEAD}: there are {text.events} notices, and at most 100 stand;"
        " are some there twice?"
    )


def too_long(text, _):
    """32."""
    return (
        "the text has more than 65,536 bytes; put all readings of a day in one line,"
        " or leave out hours that no event needs"
    )


# Notices. Each tells what the notice does.


def outside_period(text, place):
    """10."""
    day, _, _ = text.notice(place)
    look = "is it a day of a month?" if day <= 31 else "look at its day"
    return (
        "is outside the winter period, 1 December to 31 March;"
        f" days are counted from 1 November, which is 0; {look}"
    )


def on_excluded_day(text, place):
    """11."""
    return (
        "is on an excluded day: 24, 25, 26, 31 December, 1, 2 January, Good Friday and Easter"
        " Monday have no events"
    )


def no_hours(text, place):
    """13."""
    _, start, end = text.notice(place)
    look = "are the two swapped?" if end < start else "the last number is the hour at which it ends"
    return f"does not end after it starts; {look}"


def in_no_band(text, place):
    """26."""
    return (
        "has no hour in a band, 6:00 to 10:00 or 16:00 to 20:00; hours are counted to 24, and 5:00"
        " in the afternoon is 17"
    )


def across_band(text, place):
    """27."""
    return (
        "has hours in a band, 6:00 to 10:00 or 16:00 to 20:00, but not all in one; is its start or"
        " its end mistyped?"
    )


def too_early(text, place):
    """15."""
    is_twice = text.notice(place) == text.notice(place - 1)
    look = "is it there twice?" if is_twice else "are the notices in the order of time?"
    return f"starts before the one before it ends; {look}"


def same_band(text, place):
    """16."""
    _, start, end = text.notice(place - 1)
    return (
        "is in the same morning or evening as the one before it,"
        f" {hours_in_words(start, end)}; only one of them stands"
    )


def past_limit(text, place):
    """18."""
    return "makes more than 100 event hours; do all notices belong to this winter and this site?"


OF_TEXT = {
    30: form_broken, 31: read_misplaced, 32: too_long,
    1: wrong_winter, 3: wrong_price, 4: too_many_notices,
}
OF_NOTICE = {
    10: outside_period, 11: on_excluded_day, 13: no_hours, 26: in_no_band, 27: across_band,
    15: too_early, 16: same_band, 18: past_limit,
}


def refused_line(text, refusal):
    """The line of the text that a refusal is about, 0 where it is the whole text."""
    if refusal.number in OF_NOTICE:
        return text.notice_line(refusal.place)
    return {1: 1, 3: 2, 4: HEAD}.get(refusal.number, refusal.place)


def sentence(text, refusal):
    """Why the text is refused, in a sentence."""
    if refusal.number in OF_TEXT:
        return OF_TEXT[refusal.number](text, refusal.place)
    about = event_in_words(text.winter, text.notice(refusal.place))
    why = OF_NOTICE[refusal.number](text, refusal.place)
    return f"line {text.notice_line(refusal.place)}: the notice of {about}, {why}"


def page(text, refusal):
    """The lines that a person reads in place of a statement."""
    yield f"There is no statement: the text is refused with number {refusal.number}."
    yield sentence(text, refusal)
    line = refused_line(text, refusal)
    if 0 < line <= len(text.lines):
        yield f"    {shown(text.lines[line - 1])}"
