"""What takes copper away when the board is made: holes, slots and routs without plating, and all that lies outside the
board's edge. Plated barrels join, and take nothing away.
"""
from typing import Iterator, NamedTuple, Optional, Sequence, Tuple

from boardnet_show.base.facts import HoleAt
from boardnet_show.bounds.files.profiles import Outline
from boardnet_show.bounds.polarity import negative
from boardnet_show.bounds.polarity.dark_and_clear import Object
from boardnet_show.geometry.pieces import Capsule
from boardnet_show.intake.unplated_holes import UnplatedHoles

Spot = Tuple[int, int]
Box = Tuple[int, int, int, int]


class Removal(NamedTuple):
    """What takes copper away on every layer: a hole, None of the board's edge. `clear` has pieces that it takes away
    for certain, and pieces round all that it may take away; `box` is round these, None where they are everywhere.
    """

    hole: Optional[HoleAt]
    clear: Object
    box: Optional[Box]


# ---- holes


def of_holes(holes: UnplatedHoles) -> Iterator[Removal]:
    """Each hole as it takes copper away: half an odd diameter lies between two whole lengths, and capsules have half of
    it, rounded down."""
    for piece, line in enumerate(holes.lines):
        a, b, radius = holes.shapes.capsule(piece)
        x, y = ((p + q) // 2 for p, q in zip(a, b))
        hole = HoleAt(not holes.shapes.is_spot(piece), 2 * radius, (x, y), holes.file, line)
        left, low, right, high = holes.shapes.box(piece)
        clear = Object(False, ([Capsule(a, b, radius)], [Capsule(a, b, radius + 1)]), 0)
        yield Removal(hole, clear, (left - 1, low - 1, right + 1, high + 1))


# ---- the edge


def of_edge(outline: Outline, spots: Sequence[Spot]) -> Optional[Removal]:
    """All that lies outside the board's edge, where it is known, as far as a board may reach about these places."""
    if outline.why or not outline.objects:
        return None
    corners = negative.beyond(negative.around([outline.box, *((x, y, x, y) for x, y in spots)]))
    return Removal(None, negative.outside(list(outline.objects), (*corners[0], *corners[2]), 0)[0], None)
