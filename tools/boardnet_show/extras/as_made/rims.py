"""What lies within half a width of a contour's edges, as few convex areas round it: one for each edge, and where an
edge goes on almost straight both end at one line. An area for a draw has eight times as many corners, and overlaps its
neighbours.
"""
from collections import Counter
from math import hypot
from typing import Collection, Iterator, List, Optional, Tuple

from boardnet_show.geometry.capsule_polygons import is_convex, keeps_off, polygon
from boardnet_show.geometry.pieces import Capsule

Spot = Tuple[int, int]
Edge = Tuple[Spot, Spot]
MORE = 3  # u that sides are further away, for the rounding of their ends
STRAIGHT = 0.97  # the least cosine of a turn at which edges end at one line
Ends = Optional[Tuple[Spot, Spot]]


def key(edge: Edge) -> Edge:
    """An edge, whichever way it is run along."""
    return min(edge), max(edge)


def own_edges(corners: List[Spot]) -> List[Edge]:
    """The edges of a contour that have a length."""
    return [(a, b) for a, b in zip(corners, corners[1:] + corners[:1]) if a != b]


def bordering(corners: List[Spot], shared: Collection[Edge]) -> List[Optional[Edge]]:
    """The edges of a contour in their order, None for those that are no border: shared ones, and those that it runs
    along an even number of times, which have copper on both sides or on none."""
    lines = own_edges(corners)
    times = Counter(map(key, lines))
    return [line if key(line) not in shared and times[key(line)] % 2 else None for line in lines]


def ends_of(before: Optional[Edge], after: Optional[Edge], half: int) -> Tuple[Ends, float]:
    """The line at which two edges end, right and left of their common corner, and how much of each it may take away;
    None where they turn there."""
    if not before or not after:
        return None, 0.0
    (a, b), (_, c) = before, after
    one, two = hypot(b[0] - a[0], b[1] - a[1]), hypot(c[0] - b[0], c[1] - b[1])
    ux, uy, vx, vy = (b[0] - a[0]) / one, (b[1] - a[1]) / one, (c[0] - b[0]) / two, (c[1] - b[1]) / two
    cosine = ux * vx + uy * vy
    if cosine < STRAIGHT:
        return None, 0.0
    far = (half + MORE) / (1 + cosine)
    x, y = (uy + vy) * far, -(ux + vx) * far
    taken = 2 * half * abs(ux * vy - uy * vx) / (1 + cosine)
    return ((round(b[0] + x), round(b[1] + y)), (round(b[0] - x), round(b[1] - y))), taken


def area(edge: Edge, half: int, first: Ends, last: Ends, taken: float) -> Optional[List[Spot]]:
    """The area of an edge between the lines at its ends; None where these do not fit it."""
    a, b = edge
    if not first or not last or taken > hypot(b[0] - a[0], b[1] - a[1]):
        return None
    found = [first[0], last[0], last[1], first[1]]
    is_off = all(keeps_off(p, q, c, half) for p, q in (found[:2], found[2:]) for c in edge)
    return found if is_off and is_convex(found) else None


def round_edges(lines: List[Optional[Edge]], half: int) -> Iterator[List[Spot]]:
    """Areas that hold together all that is at most half a width from some edges of a contour, in their order."""
    ends = [ends_of(lines[k - 1], line, half) for k, line in enumerate(lines)]
    whole = [
        line and area(line, half, ends[k][0], ends[(k + 1) % len(lines)][0], ends[k][1] + ends[(k + 1) % len(lines)][1])
        for k, line in enumerate(lines)
    ]
    for k, line in enumerate(lines):
        # Both sides of a line at which edges end are covered, or the edge has an area of its own.
        found = whole[k] if whole[k - 1] and whole[(k + 1) % len(lines)] else None
        if line:
            yield found or polygon(Capsule(*line, half), True) or []
