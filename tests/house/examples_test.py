"""Tests the first command of the README, `scripts/statement`, on the texts in examples/.

Each text must get the statement that stands beside it, which must be the second program's
too. A wrong use gets a word on standard error and exit status 2, and nothing is printed.
The mistakes that docs/TEXT.md tells of get the answers that it says, by the second program, and the
figures of docs/POWER.md are its too.
The last line printed is "N passed, M failed".
"""

import re
from functools import partial

import reach
from common.harness import ROOT, Failure, ended, run, run_tests, scratch
from host_page import Site, at, settled
from second.energies import MISSING
from second.statements import statement
from sources import check_none, rows

EXAMPLES = sorted((ROOT / "examples").glob("*.txt"))
SCRIPT = ROOT / "scripts" / "statement"
POWER_PAGE = ROOT / "docs" / "POWER.md"

WRONG_USE = 2


def check_example(text):
    """The statement of an example is the one beside it, asked for by its name from another
    folder, and on standard input."""
    expected = text.with_suffix(".expected").read_bytes()
    if statement(text.read_bytes()) != expected:
        raise Failure(f"{text.name} has another statement by the second program")
    for done in (run(SCRIPT, text, cwd=scratch()), run(SCRIPT, input=text.read_bytes())):
        if (done.stdout, done.stderr) != (expected, b""):
            raise Failure(f"{text.name}: {done.stdout!r} and {done.stderr!r}, not {expected!r}")


def check_wrong_use(arguments):
    """The script says what is wrong, on standard error alone."""
    done = ended(SCRIPT, *arguments)
    if done.returncode != WRONG_USE:
        raise Failure(f"exit status {done.returncode}, not {WRONG_USE}")
    if done.stdout or not done.stderr:
        raise Failure(f"it prints {done.stdout!r}, and {done.stderr!r} on standard error")


def with_line(text, line):
    """A text with a line in place of the one that it is written for: that of its key, day and
    hour, or else of its key and day, or of its key."""
    lines = text.splitlines()
    key, *numbers = re.split("[=,]", line)
    for alike in (numbers[:2], numbers[:1], []):
        start = rf"{key}={','.join(alike)}\b"
        found = [number for number, one in enumerate(lines) if re.match(start, one)]
        if found:
            lines[found[0]] = line
            break
    return "".join(f"{one}\n" for one in lines)


def mistakes_of_page():
    """The rows of TEXT.md's mistakes that are one other line of the sample: where the row stands,
    the text with that line, and the beginning of the answer, empty for a statement."""
    sample = (ROOT / "examples" / "winter.txt").read_text()
    for row in rows(ROOT / "docs" / "TEXT.md"):
        for line in re.findall(r"`(\w+=[^`]*)`", row.cells[1]) if row.head[0] == "mistake" else []:
            text = with_line(sample, line)
            if ".." not in line and text != sample:
                refused = re.match(r"`(refused=\d+(?:,\d+)?)`", row.cells[2])
                yield row.place(), text, refused[1] if refused else ""


def check_mistakes():
    """What TEXT.md says of a mistake is so."""
    found, count = [], 0
    for place, text, right in mistakes_of_page():
        count += 1
        answer = statement(text.encode()).decode()
        if not (re.match(rf"{right}\b", answer) if right else answer.startswith("winter=")):
            found.append(f"{place} {answer.splitlines()[0]}")
    print(f"  mistakes: {count}")
    check_none(found, "other answers")


# The page on medium-power sites.


def whole(cell):
    """A number of the page, without its commas."""
    return int(cell.replace(",", ""))


def rows_under(head):
    """The cells of the rows of the page's table with this head of a column."""
    return [row.cells for row in rows(POWER_PAGE) if head in row.head]


def readings_of(notice, drew):
    """What the hours of a notice drew, as the page has it, by day and hour."""
    day, start, _ = notice
    values = [MISSING if one == "missing" else whole(one) for one in drew.split(" + ")]
    return {(day, start + index): value for index, value in enumerate(values)}


def site_of_page():
    """The site that the page settles by hand."""
    listed = rows_under("notice")
    notices = [tuple(map(int, cells[0].split(","))) for cells in listed]
    readings = {}
    for notice, cells in zip(notices, listed):
        readings |= readings_of(notice, cells[2])
    return Site(notices, tuple(whole(cells[1]) for cells in listed), readings)


def check_power_example():
    """The lines of the page and its totals, as they are and with a reading of day 40 missing."""
    site = site_of_page()
    lines, totals = settled(site)
    said = [tuple(map(whole, cells[3:])) for cells in rows_under("notice")]
    if not said or said != lines:
        raise Failure(f"the lines are {lines}, not {said}")
    _, less = settled(site._replace(readings=site.readings | at([40], [6], MISSING)))
    for cells, right in zip(rows_under("reductions"), (totals, less), strict=True):
        reductions, count, _ = right
        _, one, other, kilowatts, last = cells
        if (whole(one), whole(other), whole(last)) != right:
            raise Failure(f"the totals are {right}, not {cells}")
        if kilowatts != f"{reductions / count / 12_000:.2f} kW":
            raise Failure(f"{reductions} over {count} is not {kilowatts}")


def check_power_credits():
    """Each credit of the page is that of one event with this reduction."""
    found, count = [], 0
    for kilowatts, dollars in re.findall(r"([\d,]+) kW: \$([\d,.]+\d)", POWER_PAGE.read_text()):
        count += 1
        site = Site([(38, 6, 9)], (1000 * whole(kilowatts),), at([38], [6, 7, 8], 0))
        _, (_, _, cents) = settled(site)
        if f"{cents // 100:,}.{cents % 100:02}" != dollars:
            found.append(f"{kilowatts} kW: {cents} cents, not {dollars}")
    print(f"  credits: {count}")
    check_none(found if count else ["none"], "other credits")


def check_there_are_examples():
    """No example would test nothing."""
    if not EXAMPLES:
        raise Failure("examples/ has no text")


TESTS = [
    ("there are examples", check_there_are_examples),
    *((f"examples/{text.name}", partial(check_example, text)) for text in EXAMPLES),
    ("a file that is not there", partial(check_wrong_use, ["no such file"])),
    ("a folder for a file", partial(check_wrong_use, [ROOT / "examples"])),
    ("two files", partial(check_wrong_use, EXAMPLES[:1] * 2)),
    ("TEXT.md's mistakes get the answers that it says", check_mistakes),
    ("POWER.md's winter by hand is the second program's", check_power_example),
    ("POWER.md's credits are the second program's", check_power_credits),
]


if __name__ == "__main__":
    run_tests(TESTS)
