"""The statement of a text in words, as scripts/statement --words runs it:

    PYTHONPATH=scripts python3 -m words <TEXT

The proved program answers the text. What is printed is that answer, and what stands in the text
at the lines that it is about. The exit status is 3 where the text is refused.
"""

import subprocess
import sys
from pathlib import Path

from words.pages import page_of
from words.texts import Refusal, Text, answer_of

PROGRAM = Path(__file__).resolve().parents[1] / "program"

# One byte more than a text may have: what is longer is refused all the same.
READ_AT_MOST = 65_537

FAILED = 1
REFUSED = 3


def asked(text):
    """What the proved program prints for a text."""
    done = subprocess.run([PROGRAM, "statement"], input=text, stdout=subprocess.PIPE, check=False)
    if done.returncode != 0:
        sys.exit(FAILED)
    return done.stdout


def main():
    given = sys.stdin.buffer.read(READ_AT_MOST)
    answer = answer_of(asked(given))
    print(*page_of(Text(given), answer), sep="\n")
    sys.exit(REFUSED if isinstance(answer, Refusal) else 0)


if __name__ == "__main__":
    main()
