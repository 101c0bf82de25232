"""Copper files that say where there is none: dark and clear are exchanged within the board's outline. Outside it
nothing is dark.

Where the outline is not known (`profiles`), LOWER has nothing of such a file, and UPPER all that may be.
"""
from typing import Iterable, List, Sequence

from boardnet_show.formats import gerber_attributes
from boardnet_show.geometry.exact import Refused
from boardnet_show.geometry.pieces import Area, Box, Spot

from .dark_and_clear import Object, box, whole

FRAME = 10**7  # how far beyond the outline and all objects what lies outside is taken away
MOST_WIDE = 9 * 10**9  # u that what may be is wide


def is_negative(word: str) -> bool:
    """Whether a word says that a file is one, also in a comment, or with blanks and small letters."""
    said = gerber_attributes.said_by(word.encode("latin-1")).decode("latin-1") if word.startswith("G04") else word
    return word == "IPNEG" or said.startswith("TF.FilePolarity,") and said.split(",")[1].strip().lower() == "negative"


def around(boxes: Iterable[Box]) -> Box:
    boxes = list(boxes)
    if not boxes:
        raise Refused("a negative file of a board without an outline")
    lows, highs = [b[:2] for b in boxes], [b[2:] for b in boxes]
    return (*map(min, zip(*lows)), *map(max, zip(*highs)))


def rectangle(b: Box, by: int) -> List[Spot]:
    """The corners of a box, moved outwards."""
    left, low, right, high = b[0] - by, b[1] - by, b[2] + by, b[3] + by
    return [(left, low), (right, low), (right, high), (left, high)]


def exchanged(objects, outline, tag):
    """The objects of a negative file as those of a positive one: the board's inside, then all with dark and clear
    exchanged, then nothing outside it."""
    inside, turned = [it._replace(tag=tag) for it in outline.objects], [it._replace(dark=not it.dark) for it in objects]
    seen = around([outline.box, *(box(piece) for it in objects for piece in it.both[1])])
    if not inside:
        return [Object(True, ([], [Area(beyond(seen))]), tag)] + [
            it._replace(both=([], it.both[1]), areas=None) if it.dark else it for it in turned
        ]
    return inside + turned + (outside(inside, seen, tag) if any(it.dark for it in turned) else [])


def beyond(seen: Box) -> List[Spot]:
    """A rectangle round all that is seen, as much wider as a board may be."""
    wide = max(seen[2] - seen[0], seen[3] - seen[1])
    return rectangle(seen, max(min(wide, (MOST_WIDE - wide) // 2), FRAME))


def outside(inside: Sequence[Object], seen: Box, tag: int) -> List[Object]:
    """What is clear beyond the board's inside."""
    all_but = [Object(True, ([Area(rectangle(seen, FRAME))],) * 2, tag)] + [
        it._replace(dark=not it.dark) for it in inside
    ]
    return [Object(False, whole(all_but), tag)]
