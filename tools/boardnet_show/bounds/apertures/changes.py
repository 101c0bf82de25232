"""Apertures that are mirrored, then turned, then sized about their origin: pieces within and pieces round the changed
shape."""
from fractions import Fraction as Q
from functools import lru_cache
from typing import Any, List, NamedTuple, Optional, Sequence

from boardnet_show.bounds.polarity.dark_and_clear import Object
from boardnet_show.bounds.primitives.real_polygons import polygon_bounds
from boardnet_show.geometry.exact import cos_sin, exact, minus, times, turned, whole_near
from boardnet_show.geometry.pieces import Area, Capsule, Piece
from boardnet_show.geometry.segments import cross, edges

from .apertures import Block, Pen, Shape

MIRRORS = {"N": (False, False), "X": (True, False), "Y": (False, True), "XY": (True, True)}


class Change(NamedTuple):
    """Mirrored in x and in y, turned counterclockwise by degrees, sized by a factor."""

    mirror: tuple = (False, False)
    turn: Q = Q(0)
    size: Q = Q(1)

    def changed_by(self, word: str, value: Any) -> "Optional[Change]":
        """With what one word says, None where it says nothing that is known."""
        if word == "LM":
            return self._replace(mirror=MIRRORS[value]) if value in MIRRORS else None
        if value is None or word == "LS" and value <= 0:
            return None
        return self._replace(turn=value % 360) if word == "LR" else self._replace(size=value)

    def alters(self, made: Any) -> bool:
        """Whether a flash of it looks otherwise. A circle is the same, however it is turned."""
        return self.size != 1 if isinstance(made, Pen) and made.radius is not None else self != Change()

    def is_square(self) -> bool:
        """Whether whole places stay whole."""
        return self.size == 1 and self.turn % 90 == 0

    def shape(self, made: Any) -> Shape:
        """The changed shape. What is cut into parts loses what joins them, and maybe some of them."""
        lower, upper = (
            [it for piece in pieces for it in changed(self, frozen(piece), side)]
            for side, pieces in enumerate(made.both)
        )
        lost = self.lost(made.both[0], len(lower))
        told = [*([made.lost] if made.lost else []), *([f"{lost} a changed shape"] if lost else [])]
        return Shape(lower, upper, " and ".join(told) or None, made.is_pen)

    def lost(self, before: Sequence[Piece], left: int) -> Optional[str]:
        """What is lost of pieces of which so many are left; None for nothing. Areas that abut where they are cut do so
        no more."""
        if left < len(before):
            return f"{len(before) - left} of the {len(before)} parts of" if left else "all of"
        return f"the join of the {left} parts of" if not self.is_square() and abut(before) else None

    def objects(self, block: Block) -> List[Object]:
        """The objects of a block, changed."""
        if self == Change():
            return block.objects
        changed_by = lambda pieces, side: [part for piece in pieces for part in changed(self, frozen(piece), side)]
        return [
            it._replace(both=tuple(changed_by(pieces, side) for side, pieces in enumerate(it.both)), areas=None)
            for it in block.objects
        ]


def abut(pieces: Sequence[Piece]) -> bool:
    """Whether a level or upright edge of an area lies along one of another that is on its other side."""
    lines = {}
    for k, piece in enumerate(pieces):
        sides = edges(piece.corners) if isinstance(piece, Area) else []
        is_left = sum(cross((0, 0), a, b) for a, b in sides) > 0
        for a, b in sides:
            for axis in (0, 1):
                if a[axis] == b[axis] and a != b:
                    low, high = sorted((a[1 - axis], b[1 - axis]))
                    lines.setdefault((axis, a[axis]), []).append((low, high, k, (a < b) == is_left))
    for its in lines.values():
        reach = {}
        for low, high, k, side in sorted(its):
            if any(low < end for (other, its_side), end in reach.items() if other != k and its_side != side):
                return True
            reach[k, side] = max(high, reach.get((k, side), high))
    return False


def frozen(piece: Piece) -> Any:
    return Area(tuple(piece.corners)) if isinstance(piece, Area) else piece


@lru_cache(4096)
def changed(change: Change, piece: Any, side: int) -> List[Piece]:
    """Pieces within a changed piece, or round it."""
    turn = cos_sin(change.turn)

    def at(spot):
        x, y = (minus(exact(v)) if is_mirrored else exact(v) for v, is_mirrored in zip(spot, change.mirror))
        return tuple(times(v, exact(change.size)) for v in turned((x, y), turn))

    if isinstance(piece, Area):
        points = [at(spot) for spot in piece.corners]
        return polygon_bounds(points if change.mirror[0] == change.mirror[1] else points[::-1])[side]
    (a, off_a), (b, off_b) = whole_near(at(piece.start)), whole_near(at(piece.end))
    off, radius = max(off_a, off_b), piece.radius * change.size
    radius = (radius + off).__ceil__() if side else (radius - off).__floor__()
    return [Capsule(a, b, radius)] if radius > 0 else []
