"""Findings as annotations of GitHub Actions: workflow commands, one a line, as the runner reads them from the output
of a step.

GitHub's "Workflow commands for GitHub Actions" has their form: `::error file=NAME,line=N,title=TITLE::MESSAGE`.
"""
from typing import Iterator

from .causes import Cause, causes_of
from .shown import Shown
from .text_lines import summary

IN_MESSAGE = {"%": "%25", "\r": "%0D", "\n": "%0A"}
IN_PROPERTY = {**IN_MESSAGE, ":": "%3A", ",": "%2C"}


def message(text: str) -> str:
    return "".join(IN_MESSAGE.get(sign, sign) for sign in text)


def value_of(text: str) -> str:
    return "".join(IN_PROPERTY.get(sign, sign) for sign in text)


def row(cause: Cause) -> str:
    word = "error" if cause.is_certain else "warning"
    place = f"file={value_of(cause.file)},line={cause.line}," if cause.file else ""
    return f"::{word} {place}title={value_of(cause.name)}::{message(cause.words)}"


def rows(shown: Shown) -> Iterator[str]:
    """The causes of one board, and then its own line; no line begins with a text of the board's, which the runner
    could obey."""
    yield from map(row, causes_of(shown))
    yield f"::notice title=boardnet::{message(summary(shown))}"
