"""What the tests of the comparison look at: that answers are the same, right, and of every kind.

Cases are compared group by group. What was said to them is gathered, and then looked at
together: a comparison that gets only some of the answers would show little.
"""

from fractions import Fraction
from itertools import accumulate, zip_longest
from typing import NamedTuple

from common.harness import Failure
from second import settlements

# Number and place of an accepted call.
ACCEPTED = (0, 0)

SHOWN_DIFFERENCES = 5

# Of a longer query or answer the beginning and the end are shown.
SHOWN_LETTERS = 300


def shown(told):
    """A query or an answer as it is shown where it is wrong."""
    text = told if isinstance(told, str) else repr(told)
    if len(text) <= 2 * SHOWN_LETTERS:
        return text
    return f"{text[:SHOWN_LETTERS]} .. {text[-SHOWN_LETTERS:]}, {len(text)} letters"


class Case(NamedTuple):
    """A query, and what it was built for, if for anything."""
    query: object
    built_for: object = None

    def __repr__(self):
        return f"built for {self.built_for}: {shown(self.query)}"


def check_same(queries, said, right):
    """The library said what the second program says, query by query."""
    rows = zip_longest(queries, said, right)
    differences = [map(shown, row) for row in rows if row[1] != row[2]]
    if differences:
        first = [
            f"\n  query          {query}\n  library        {one}\n  second program {other}"
            for query, one, other in differences[:SHOWN_DIFFERENCES]
        ]
        raise Failure(f"answers that differ: {len(differences)}; the first:{''.join(first)}")


def check_group(make, both, answered):
    """What `make` makes gets the same from both programs, which `both` asks; `answered` gathers
    the cases with what the library said."""
    cases = make()
    queries = [case.query for case in cases]
    said, right = both(queries)
    answered += zip(cases, said)
    print(f"  compared: {len(cases)}")
    check_same(queries, said, right)


def check_built(told, answered):
    """The cases that were built for an answer got it; `told` reads it off what was said."""
    built = [(case, told(case, said)) for case, said in answered if case.built_for is not None]
    wrong = [(case, got) for case, got in built if case.built_for != got]
    print(f"  built for an answer: {len(built)} of {len(answered)}")
    if not built:
        raise Failure("there was none")
    if wrong:
        raise Failure(f"{len(wrong)} got others; the first got {wrong[0][1]}: {wrong[0][0]}")


def check_figure(cases, both, told):
    """Both programs say the same to a figure's cases, and that is what the figure says."""
    answered = []
    check_group(lambda: cases, both, answered)
    check_built(told, answered)


def check_every(tally, possible):
    """Each possible answer was given, and no other. `tally` counts pairs of a call and what it
    gave, and `possible` has by call what it can give."""
    for call, answers in possible.items():
        print(f"  {call:10}  {'  '.join(f'{one}: {tally[call, one]}' for one in answers)}")
    pairs = {(call, answer) for call, answers in possible.items() for answer in answers}
    never, others = pairs - set(+tally), set(+tally) - pairs
    if never or others:
        raise Failure(f"never given: {sorted(never)}; given but not possible: {sorted(others)}")


def check_share(some, of, percent, what):
    """So many of a hundred were of this kind; if most were not, little would be compared."""
    print(f"  {what}: {some} of {of}")
    if 100 * some < percent * of:
        raise Failure(f"fewer than {percent} in 100")


def check_happened(rows, must_happen):
    """Everything that can happen to a row happened to some."""
    never = []
    for name, happens in must_happen:
        count = sum(bool(happens(*row)) for row in rows)
        print(f"  {name:38}  {count}")
        never += [name] if count == 0 else []
    if never:
        raise Failure(f"never happened: {', '.join(never)}")


def check_worth(settlements_made):
    """Demand 3 on the lines of accepted settlements, each with its price, with fractions."""
    runs = sum(worth_runs(lines, price) for lines, price in settlements_made)
    print(f"  runs of lines: {runs}")
    if runs == 0:
        raise Failure("there was no line")


def worth_runs(lines, price):
    """The number of runs of these lines, each of which is worth its cents. Of the lines up to
    each one, the cents less the exact worth are at most a half to either side. A run of lines is
    those up to its last less those before its first, so over all runs the largest difference is
    that between the highest and the lowest of these: it is below 1. The cents in all are the
    worth of all energy, rounded."""
    cents = list(accumulate((line.cents for line in lines), initial=0))
    amounts = accumulate((line.energy for line in lines), initial=0)
    exact = [Fraction(energy * price, 18_000_000) for energy in amounts]
    off = [one - other for one, other in zip(cents, exact)]
    if max(map(abs, off)) > Fraction(1, 2):
        raise Failure(f"more than half a cent off from the first line: {price}, {lines}")
    if max(off) - min(off) >= 1:
        raise Failure(f"a run of lines is a cent off or more: {price}, {lines}")
    if cents[-1] != settlements.rounded(exact[-1]):
        raise Failure(f"the cents are not the rounded worth in all: {price}, {lines}")
    return len(lines) * (len(lines) + 1) // 2
