"""Whether a copper file lies within the profile, without a walk over the corners of its large contours: so planes
need no bounds."""
import re
from typing import Tuple

from boardnet_show.formats.gerber_machine import MOST_EDGES
from boardnet_show.geometry.exact import Refused

from .bounded_file import Copper

# A contour as most tools write it, some words of it empty.
MOVED = re.compile(r"\s*X[+-]?[0-9]{1,13}Y[+-]?[0-9]{1,13}D0?2\*")
DRAWN = re.compile(r"[\s*]*X[+-]?[0-9]{1,13}Y[+-]?[0-9]{1,13}D0?1\*")
PLAIN = re.compile(r"\s*(?:X[+-]?[0-9]{1,13}Y[+-]?[0-9]{1,13}D0?1)?\*")
EMPTY = re.compile(r"(?:\*\s*){3,}")
LONG = 10_000  # characters of a contour
KEPT = 4  # edges at its beginning, so that it is one


def is_within(text: str) -> bool:
    """Whether `check` takes all of a file, as far as a walk over what stands beside large contours says; of most
    others it is not asked."""
    short = shortened(text)
    if 2 * len(short) > len(text):
        return False
    try:
        copper = Copper(short)
    except Refused:
        return False
    return not (
        copper.replaced
        or copper.lost
        or copper.long
        or copper.clears
        or copper.negative
        or copper.rows
        or copper.unlike
    )


def shortened(text: str) -> str:
    """A file without most edges of contours that are alone in their region and that have straight edges in words
    alike."""
    parts, done, start = [], 0, text.find("G36*")
    while start >= 0:
        end = text.find("G37*", start)
        if end - start > LONG and text[:start].rstrip()[-1:] in ("*", "%"):
            first, last = kept(text, start + len("G36*"), end)
            # What is cut leaves empty words behind, also between the first edges.
            parts += [text[done:start], EMPTY.sub("*\n", text[start:first])]
            done = last
        start = text.find("G36*", start + 1 if end < 0 else end)
    return "".join([*parts, text[done:]])


def kept(text: str, start: int, end: int) -> Tuple[int, int]:
    """Where the edges of a region that may be left out begin and end: all but the first ones and the last one; else
    nothing."""
    moved = MOVED.match(text, start, end)
    at = moved.end() if moved else end
    for _ in range(KEPT):
        drawn = DRAWN.match(text, at, end)
        at = drawn.end() if drawn else end
    last = text.rfind("X", at, end)
    if last < 0 or text.count("D", at, end) > MOST_EDGES - KEPT or PLAIN.sub("", text[at:end]).strip():
        return start, start
    return at, last
