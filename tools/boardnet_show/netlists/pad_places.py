"""Where a netlist may name a pad: a place of its grid that lies in the pad's own copper.

An IPC-D-356A file counts whole units of 0.0001 inch or 0.001 mm, and the middle of a pad is seldom a whole number of
both. The place nearest to it is taken, where that is copper of the pad, and else another within the pad: a record is
never off its copper. All is whole numbers and fractions. A pad that is erased again has a record all the same: where
its copper would be.
"""
from fractions import Fraction as Q
from itertools import islice
from typing import Iterator, List, NamedTuple, Optional, Sequence, Tuple

from boardnet_show.bounds.polarity.dark_and_clear import box
from boardnet_show.formats.units import CODES
from boardnet_show.geometry.capsule_polygons import polygon
from boardnet_show.geometry.pieces import Area, Capsule, Piece, Spot
from boardnet_show.geometry.segments import edges, odd_inside, point_within

MOST = 999_999  # six digits
ROWS, ALONG = 15, 8  # as many rows of an area, and places along a capsule, are looked at
FEW = 8  # of as many places that will do the nearest is taken


class Pad(NamedTuple):
    """Copper with a place where a point is wanted; what lies in one of `gone` is not taken, as where copper is erased
    again."""

    middle: tuple
    pieces: list
    gone: list = ()


class Place(NamedTuple):
    """A place in whole units, and how far it is from where it was wanted, squared, in u."""

    x: int
    y: int
    off: int


def holds(piece: Piece, spot: Spot) -> bool:
    """Whether a piece has a place; its border is part of it."""
    if isinstance(piece, Capsule):
        return point_within(spot, *piece)
    return odd_inside(piece.corners, spot) or any(point_within(spot, a, b, 0) for a, b in edges(piece.corners))


def is_copper(pad: Pad, spot: Spot) -> bool:
    return any(holds(piece, spot) for piece in pad.pieces) and not any(holds(piece, spot) for piece in pad.gone)


def around(spot: Spot, unit: int) -> List[Spot]:
    """The four places of the grid about a place, the nearest first."""
    x, y = (v // unit for v in spot)
    return sorted(((x + i, y + j) for i in (0, 1) for j in (0, 1)), key=lambda at: apart(at, spot, unit))


def apart(at: Spot, spot: Spot, unit: int) -> int:
    return sum((v * unit - wanted) ** 2 for v, wanted in zip(at, spot))


def middles(piece: Piece) -> List[Spot]:
    """Places that a piece is likely to have round them."""
    if isinstance(piece, Capsule):
        (x1, y1), (x2, y2) = piece.start, piece.end
        return [
            (x1 + (x2 - x1) * k // ALONG, y1 + (y2 - y1) * k // ALONG)
            for k in (4, 0, 8, 2, 6, 1, 3, 5, 7)[: 9 if piece.start != piece.end else 1]
        ]
    left, low, right, high = box(piece)
    return [((left + right) // 2, (low + high) // 2)]


def rows(piece: Piece, unit: int) -> List[int]:
    """Rows of the grid across a piece, spread over its height, those at half of it first."""
    _, low, _, high = box(piece)
    first, last = -(-low // unit), high // unit
    step = max(1, (last - first + ROWS) // ROWS)
    return sorted(
        range(first + (last - first) % step // 2, last + 1, step), key=lambda row: abs(2 * row * unit - low - high)
    )


def across(corners: Sequence[Spot], y: int) -> List[Tuple[Q, Q]]:
    """Where a row is inside an area, as (from, to), the widest first."""
    cuts = sorted(
        Q((b[0] - a[0]) * (y - a[1]), b[1] - a[1]) + a[0] for a, b in edges(corners) if (a[1] > y) != (b[1] > y)
    )
    return sorted(zip(cuts[::2], cuts[1::2]), key=lambda cut: cut[0] - cut[1])


def within(piece: Piece, unit: int) -> Iterator[Spot]:
    """Places of the grid that may lie in a piece."""
    for spot in middles(piece):
        yield from around(spot, unit)
    corners = piece.corners if isinstance(piece, Area) else polygon(piece, False)
    for row in rows(piece, unit) if corners else ():
        for first, last in across(corners, row * unit)[:ROWS]:
            for k in (4, 2, 6, 1, 7):
                yield round((first + (last - first) * k / 8) / unit), row


def size(piece: Piece) -> int:
    left, low, right, high = box(piece)
    return (right - left) * (high - low)


def is_erased(pad: Pad, at: Place, unit: int) -> bool:
    return bool(pad.gone) and not is_copper(pad, (at.x * unit, at.y * unit))


def grid_place(pad: Pad, unit: int) -> Optional[Place]:
    """A place of the grid in a pad's copper, as near to its middle as is easily found, or None. Of a pad that is
    erased again it is the place that it would have, so that its copper is missed there."""
    return found_in(pad, unit) or (found_in(pad._replace(gone=()), unit) if pad.gone else None)


def found_in(pad: Pad, unit: int) -> Optional[Place]:
    for at in around(pad.middle, unit):
        if max(map(abs, at)) <= MOST and is_copper(pad, (at[0] * unit, at[1] * unit)):
            return Place(*at, apart(at, pad.middle, unit))
    tried = (at for piece in sorted(pad.pieces, key=size, reverse=True) for at in within(piece, unit))
    found = islice(
        (at for at in tried if max(map(abs, at)) <= MOST and is_copper(pad, (at[0] * unit, at[1] * unit))), FEW
    )
    best = min(found, key=lambda at: (apart(at, pad.middle, unit), at), default=None)
    return best and Place(*best, apart(best, pad.middle, unit))


def settled(pads: Sequence[Pad]) -> Tuple[int, List[Optional[Place]]]:
    """(unit, places): the unit in which most pads have a place in copper, and of two such that with most at their
    middles."""
    tried = [(unit, [grid_place(pad, unit) for pad in pads]) for unit in CODES]
    return min(
        tried,
        key=lambda way: (
            sum(at is None or is_erased(pad, at, way[0]) for pad, at in zip(pads, way[1])),
            sum(at is not None and at.off > 0 for at in way[1]),
            sum(at.off for at in way[1] if at),
        ),
    )
