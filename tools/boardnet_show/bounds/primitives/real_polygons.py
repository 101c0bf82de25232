"""Discs and polygons with real corners between pieces with whole ones.

Of each shape two lists of pieces: those that lie in it, and those that hold it. An area is filled by even-odd. Corners
are places of intervals.
"""
from fractions import Fraction as Q
from math import isqrt
from typing import List, Sequence

from boardnet_show.geometry.exact import cross_least, pointed, whole_near
from boardnet_show.geometry.pieces import Area, Both, Capsule, Corners, Piece, Point, Spot
from boardnet_show.geometry.segments import Segments, cross, dot, edges, odd_inside, segments_within


def disc_bounds(centre: Point, radius: Q) -> Both:
    spot, off = whole_near(centre)
    low, high = (radius - off).__floor__(), (radius + off).__ceil__()
    return [Capsule(spot, spot, low)] if low > 0 else [], [Capsule(spot, spot, high)] if radius > 0 else []


def whole_corners(points):
    near = [whole_near(p) for p in points]
    return [spot for spot, _ in near], all(off == 0 for _, off in near)


def mitred(spots: Corners, by: Q) -> List[Spot]:
    """Corners moved to the left of their edges by about `by` (to the inside where they run counterclockwise). A
    guess."""
    return [(round(x), round(y)) for x, y in mitres(spots, by)]


def mitres(spots, by):
    """The same before they are rounded."""
    n = len(spots)
    for k in range(n):
        p, v, q = spots[k - 1], spots[k], spots[(k + 1) % n]
        (ax, ay), (bx, by_) = unit_normal(p, v), unit_normal(v, q)
        below = max(1 + ax * bx + ay * by_, Q(1, 4096))
        yield v[0] + by * (ax + bx) / below, v[1] + by * (ay + by_) / below


def unit_normal(a, b):
    dx, dy = b[0] - a[0], b[1] - a[1]
    length = max(1, isqrt((dx * dx + dy * dy) << 40))
    return Q(-dy << 20, length), Q(dx << 20, length)


def convex_bounds(points: Sequence[Point]) -> Both:
    """For a convex polygon of points of intervals, counterclockwise. LOWER: all corners lie left of all real edges.
    UPPER: its corners lie in convex order, and all real corners lie left of all its edges."""
    spots, whole = whole_corners(points)
    if whole:
        return [Area(spots)], [Area(spots)]
    return convex_lower(points, spots), convex_upper(points, spots)


def convex_lower(points, spots):
    for by in (1, 2, 4):
        inner = mitred(spots, by)
        if all(cross_least(a, b, pointed(w)) >= 0 for a, b in edges(points) for w in inner):
            return [Area(inner)]
    return []


def convex_upper(points, spots):
    for by in (1, 2, 4, 8, 16):
        outer = mitred(spots, -by)
        round_once = all(w in (a, b) or cross(a, b, w) > 0 for a, b in edges(outer) for w in outer)
        if (
            round_once
            and len(set(outer)) == len(outer)
            and all(cross_least(pointed(a), pointed(b), v) >= 0 for a, b in edges(outer) for v in points)
        ):
            return [Area(outer)]
    return polygon_upper(spots)


def polygon_upper(spots: Corners) -> List[Piece]:
    """Each real corner lies within 1 u of its spot, so what lies in one area alone is within 1 u of an edge of the
    spots."""
    return [Area(spots)] + [Capsule(a, b, 1) for a, b in edges(spots)]


def polygon_bounds(points: Sequence[Point]) -> Both:
    """For any outline. LOWER wants a simple outline: a closed chain that meets no real edge, with one corner inside."""
    spots, whole = whole_corners(points)
    if whole:
        return [Area(spots)], [Area(spots)]
    if sum(cross((0, 0), a, b) for a, b in edges(spots)) < 0:
        points, spots = points[::-1], spots[::-1]
    if (
        len(points) <= 64
        and all(cross_least(points[k - 2], points[k - 1], points[k]) > 0 for k in range(len(points)))
        and once_round(spots)
    ):
        return convex_bounds(points)
    return polygon_lower(spots), polygon_upper(spots)


def once_round(spots: Corners) -> List[Spot]:
    """Each corner lies left of each edge, by more than the real corners can be off."""
    return all(
        w in (a, b)
        or cross(a, b, w) > 4 * (abs(b[0] - a[0]) + abs(b[1] - a[1]) + abs(w[0] - a[0]) + abs(w[1] - a[1]) + 4)
        for a, b in edges(spots)
        for w in spots
    )


def polygon_lower(spots):
    grid = Segments(edges(spots))
    if not simple(spots, grid):
        return []
    for by in (3, 6, 12, 24):
        inner = mitred(spots, by)
        clear = not any(
            segments_within(a, b, *grid.segments[k], 1) for a, b in edges(inner) for k in grid.near(a, b, 2)
        )
        if clear and odd_inside(spots, inner[0]):
            return [Area(inner)]
    return []


def simple(spots: Corners, grid: Segments, apart: int = 2) -> bool:
    """No two edges that are not neighbours come within 2 u or another distance, and no edge folds back on its
    neighbour."""
    n = len(spots)
    for i, (a, b) in enumerate(grid.segments):
        for j in grid.near(a, b, 4):
            if (i - j) % n in (0, 1, n - 1):
                continue
            if segments_within(a, b, *grid.segments[j], apart):
                return False
        c = spots[(i + 2) % n]
        if dot(b, a, c) > 0 and abs(cross(b, a, c)) <= 2 * apart * (
            abs(a[0] - b[0]) + abs(a[1] - b[1]) + abs(c[0] - b[0]) + abs(c[1] - b[1]) + 4
        ):
            return False
    return True
