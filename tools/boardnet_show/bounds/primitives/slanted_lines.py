"""Slanted lines of macros: rectangles about lines along no axis, between contours of four whole corners, as the crate
`slants` takes them.

How the corners were found does not matter: they are tested.
"""
from functools import lru_cache
from math import isqrt
from typing import List

from boardnet_show.geometry.arcs import rounded
from boardnet_show.geometry.capsule_polygons import is_convex
from boardnet_show.geometry.exact import Refused
from boardnet_show.geometry.pieces import Area, Both, Corners, Spot
from boardnet_show.geometry.segments import cross, dot, edges

FURTHER = (0, 1, 2, 4, 8, 16, 32)  # u that corners are tried further in or out
FINE = 1 << 24  # parts of a u


def corners(start: Spot, end: Spot, width: int, by: int) -> List[Spot]:
    """Near those of the rectangle, and `by` further out to each side: from the right of the start, counterclockwise."""
    dx, dy = end[0] - start[0], end[1] - start[1]
    length = isqrt((dx * dx + dy * dy) << 80)
    ahead, aside = 2 * by, width + 2 * by  # twice how far, along the line and across
    near = lambda v, part: v + rounded(part << 40, 2 * length)
    at = lambda spot, on, off: (
        near(spot[0], on * ahead * dx - off * aside * dy),
        near(spot[1], on * ahead * dy + off * aside * dx),
    )
    return [at(start, -1, -1), at(end, 1, -1), at(end, 1, 1), at(start, -1, 1)]


def lies_within(start: Spot, end: Spot, width: int, found: Corners) -> bool:
    """All corners lie between the lines across both ends, and at most half the width from the line."""
    square = dot(start, end, end)
    return is_convex(found) and all(
        0 <= dot(start, end, p) <= square and 4 * cross(start, end, p) ** 2 <= width * width * square for p in found
    )


def lies_round(start: Spot, end: Spot, width: int, found: Corners) -> bool:
    """All edges have start and end on their left, as far as half the width reaches across them."""
    root, along = isqrt(4 * FINE * FINE * dot(start, end, end)), [dot(start, end, p) for p in found]
    reaches = [FINE * width * abs(b - a) for a, b in zip(along, along[1:] + along[:1])]
    return is_convex(found) and all(
        0 <= turn and reach <= turn * root
        for (a, b), reach in zip(edges(found), reaches)
        for turn in (cross(a, b, start), cross(a, b, end))
    )


@lru_cache(4096)
def line_bounds(start: Spot, end: Spot, width: int) -> Both:
    """The pieces within and round the rectangle between two spots, half a whole width to each side."""
    tried = [(corners(start, end, width, -by), corners(start, end, width, by)) for by in FURTHER]
    inner = [Area(found) for found, _ in tried if lies_within(start, end, width, found)][:1]
    outer = [Area(found) for _, found in tried if lies_round(start, end, width, found)][:1]
    if not outer:
        raise Refused("no contour round a line")
    return inner, outer
