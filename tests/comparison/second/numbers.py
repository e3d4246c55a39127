"""The numbers that each call can give: refusal numbers, 0 for none, and the codes of events.

The tests hold the library and the second program to them: each is given, and no other is
(rule 4.26).
"""

# By profile. Under profile 1 hours inside one band always have an allowed length, so 14 is
# never given; under profile 2 no band has room for two events, so 16 is never given.
LIST_CHECK = {
    "profile 1": (0, 1, 4, 10, 11, 13, 26, 27, 15, 16, 18),
    "profile 2": (0, 1, 4, 10, 11, 12, 13, 26, 27, 14, 15, 18),
    "neither": (1, 5),
}

# Of one event by itself, with a list and a book that nothing has looked at before. Document
# 01 has no such call: which numbers it can give is a choice of ours, "One event, refused" in
# docs/DECISIONS.md.
EVENT = {"refusal": (1, 2, 10, 13, 26, 27), "code": (0, 20, 21, 22)}

# Its own rules, and those of the list check under profile 1. November always has five days
# that serve, so no line of an accepted list has code 20.
SETTLEMENT = {
    "settlement": (0, 1, 2, 3, 4, 6, 10, 11, 13, 26, 27, 15, 16, 18),
    "line": (0, 21, 22),
}

# The medium-power settlement's own rules, and those of the list check under profile 2. It looks at
# no other day, so no line has code 20.
POWER = {
    "power": (0, 1, 2, 4, 6, 40, 41, 10, 11, 12, 13, 26, 27, 14, 15, 18),
    "line": (0, 21, 22),
}

# A text's book always has the right length and its output the room it needs, so 2 and 6 are
# never given.
TEXT = {
    "text": (0, 1, 3, 4, 10, 11, 13, 26, 27, 15, 16, 18, 30, 31, 32),
    "line": (0, 21, 22),
}

CODES = EVENT["code"]
REFUSALS = {
    number
    for calls in (LIST_CHECK, EVENT, SETTLEMENT, POWER, TEXT)
    for call, numbers in calls.items()
    for number in numbers
    if call not in ("code", "line") and number > 0
}
