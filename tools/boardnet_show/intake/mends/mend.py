"""Mends: one file rewritten so that `check` takes it, and every piece of copper, every plated hole and every test point
kept exactly.

A mend says by words of the file itself what the file says; what is not certain is none. table.py has them all. A file
without a mend keeps its bytes. Commands and lines keep their numbers: a word or a line that goes leaves an empty one
behind.
"""
from collections import namedtuple


class Mend(namedtuple("Mend", "kind line text more what", defaults=(0, ""))):
    """What was mended: the kind, as in table.py, the first line, what stands there, how many more of the kind, and what
    became of it."""

    __slots__ = ()


class Mended(namedtuple("Mended", "file line kind words")):
    """A mend of a file, as it is told: `words` are a sentence with the file and the line."""

    __slots__ = ()


def short(text: bytes, most: int = 40) -> str:
    """Some of a word or a line, as it can be printed."""
    words = " ".join(text.decode("latin-1").split()).encode("ascii", "backslashreplace").decode("ascii")
    return words if len(words) <= most else words[: most - 3] + "..."
