"""The page of an answer: a statement with its last words, or a refusal."""

from words import odd, refusals, statements
from words.texts import Refusal


def page_of(text, answer):
    """The lines of the page."""
    if isinstance(answer, Refusal):
        return [*refusals.page(text, answer)]
    return [*statements.page(text, answer), *odd.page(text, answer)]
