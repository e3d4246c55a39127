"""Holds docs/RULES.md and whatever cites it to each other.

A rule's number stands in bold at the front of its line or of its row; it is cited as "rule 2.3",
or as "rules 2.3 and 2.4". The last line printed is "N passed, M failed".
"""

import re
from collections import Counter
from functools import cache
from itertools import groupby
from typing import NamedTuple

import reach
from common.harness import ROOT, Failure, run_tests
from sources import at, check_none, lines_of, tree

RULES = ROOT / "docs" / "RULES.md"

SECTION = re.compile(r"## (\d+) ")
RULE = re.compile(r"(?:\| )?\*\*(\d+)\.(\d+)\*\*")
CITED = re.compile(r"\b[Rr]ules? (\d+\.\d+(?:(?:,| and| to) \d+\.\d+)*)")

# A citation may go on in the next line, behind the sign of a comment.
LINE_BREAK = re.compile(r"\n[ \t]*(?:--|//|#|\*)?[ \t]*")

# What a rule says that no definition can carry: the file that holds it. Before the first rule of
# a section it is said of all of them.
HELD_BY = re.compile(r"\*No definition\*: `([^`]+)`")

CITING_FOLDERS = ("crates/", "tests/", "docs/", "include/", "examples/", "bench/", "scripts/")
CITING_FILES = (".antt", ".rt", ".py", ".md", ".c", ".h", ".edit")


class Rule(NamedTuple):
    """A rule: its number, the section under whose heading it stands, its line, and the file that
    holds it where no definition can."""
    number: str
    section: str
    line: int
    held_by: str


@cache
def rules():
    """All rules of the page, in its order."""
    section, everywhere, found = "", "", []
    for number, line in lines_of(RULES):
        heading, rule, held = SECTION.match(line), RULE.match(line), HELD_BY.search(line)
        if heading:
            section, everywhere = heading[1], ""
        if rule:
            found.append(Rule(f"{rule[1]}.{rule[2]}", section, number, everywhere))
        if held and found and found[-1].section == section:
            found[-1] = found[-1]._replace(held_by=held[1])
        elif held:
            everywhere = held[1]
    return found


@cache
def cited_in(name):
    """The numbers of the rules that a file cites, each as often as it does."""
    text = LINE_BREAK.sub(" ", (ROOT / name).read_text())
    return [number for some in CITED.findall(text) for number in re.findall(r"\d+\.\d+", some)]


def citing():
    """The files that may cite a rule."""
    return [
        name for name in sorted(tree())
        if name == "README.md" or name.startswith(CITING_FOLDERS) and name.endswith(CITING_FILES)
    ]


def check_once():
    """No number is given to two rules."""
    if not rules():
        raise Failure("there is no rule")
    times = Counter(rule.number for rule in rules())
    check_none([number for number, many in times.items() if many > 1], "given twice")


def check_order():
    """A rule's number has its section's number before the point, and behind it its place there."""
    found = []
    for section, some in groupby(rules(), key=lambda rule: rule.section):
        for place, rule in enumerate(some, start=1):
            if rule.number != f"{section}.{place}":
                found.append(f"{at(RULES, rule.line)} {rule.number}, not {section}.{place}")
    check_none(found, "out of order")


def check_cited():
    """Whatever number is cited, there is such a rule."""
    there = {rule.number for rule in rules()}
    found, count = [], 0
    for name in citing():
        numbers = cited_in(name)
        count += len(numbers)
        found += [f"{name}: rule {number}" for number in sorted(set(numbers) - there)]
    print(f"  citations: {count}, of rules: {len(there)}")
    check_none(found, "cited rules that are not there")


def check_carried():
    """Every rule has a definition that cites it, or is cited by the file that holds it."""
    specs = re.compile(r"crates/\w+/specs/\w+\.antt")
    carried = {number for name in citing() if specs.fullmatch(name) for number in cited_in(name)}
    found = []
    for rule in rules():
        cited = cited_in(rule.held_by) if rule.held_by else carried
        if rule.number not in cited:
            by = rule.held_by or "definition"
            found.append(f"{at(RULES, rule.line)} rule {rule.number}: no {by} cites it")
    check_none(found, "rules that nothing carries")


TESTS = [
    ("every rule has a number of its own", check_once),
    ("rules are numbered in order", check_order),
    ("every rule that is cited is in RULES.md", check_cited),
    ("every rule has a definition, or a file that holds it", check_carried),
]


if __name__ == "__main__":
    run_tests(TESTS)
