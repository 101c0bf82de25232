"""Which pieces of one object are one part of copper: where a pad has parts that stand apart, each is to be joined."""
from functools import lru_cache
from typing import List, Sequence, Tuple

from boardnet_show.bounds.polarity.dark_and_clear import box, moved
from boardnet_show.geometry.box_grid import meet
from boardnet_show.geometry.pieces import Area, Both, Piece, Spot
from boardnet_show.geometry.segments import edges, segments_within

from .pad_places import holds

MOST = 200  # pieces that are looked at one by one


def lines(piece: Piece) -> Tuple[List[Tuple[Spot, Spot]], int]:
    """The lines of a piece, and how far it reaches round them."""
    return (edges(piece.corners), 0) if isinstance(piece, Area) else ([piece[:2]], piece.radius)


def touch(p: Piece, q: Piece) -> bool:
    """Whether two pieces have a place in common."""
    if not meet(box(p), box(q)):
        return False
    (ours, r), (theirs, s) = lines(p), lines(q)
    return (
        holds(p, theirs[0][0])
        or holds(q, ours[0][0])
        or any(segments_within(a, b, c, d, r + s) for a, b in ours for c, d in theirs)
    )


def grouped(pieces: Sequence[Piece]) -> List[List[int]]:
    """Numbers of pieces that hang together, in order."""
    left, found = list(range(len(pieces))), []
    while left:
        group, near = [], [left.pop(0)]
        while near:
            k = near.pop()
            group.append(k)
            near += [j for j in left if touch(pieces[k], pieces[j])]
            left = [j for j in left if j not in near]
        found.append(sorted(group))
    return found


@lru_cache(1000)
def parts_beside(lower, upper):
    """For each part that the pieces round an object make the numbers of the pieces within it."""
    groups = grouped(upper)
    taken = [
        next((n for n, group in enumerate(groups) if any(touch(piece, upper[k]) for k in group)), 0) for piece in lower
    ]
    return [([k for k, n in enumerate(taken) if n == number], group) for number, group in enumerate(groups)]


def frozen(pieces, x, y):
    """Pieces beside a place, as a key."""
    its = (moved(piece, -x, -y) for piece in pieces)
    return tuple(Area(tuple(it.corners)) if isinstance(it, Area) else it for it in its)


def parts(both: Both) -> List[Tuple[List[Piece], bool]]:
    """(pieces, whether they lie within the object) of each part of an object; the pieces round it where none within
    is known."""
    lower, upper = both
    if len(upper) < 2 or len(lower) + len(upper) > MOST:
        return [(lower or upper, bool(lower))]
    x, y = box(upper[0])[:2]
    return [
        ([lower[k] for k in within] or [upper[k] for k in around], bool(within))
        for within, around in parts_beside(frozen(lower, x, y), frozen(upper, x, y))
    ]
