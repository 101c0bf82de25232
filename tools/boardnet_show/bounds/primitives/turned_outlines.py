"""Outlines of macros that are turned by no quarter turn and that `slants` does not take: within them an area, round
them one with draws along its edges, as the crate `turned_outlines` takes them.

The corners are turned and rounded as that crate does. At each turn of the cone of the angle all are at most the draws'
radius from where they come to, and so is each edge. What is kept off the draws is tested.
"""
from fractions import Fraction as Q
from functools import lru_cache
from typing import List, Optional, Sequence, Tuple

from boardnet_show.geometry.arcs import rounded
from boardnet_show.geometry.pieces import Area, Both, Capsule, Corners, Figure, Point, Spot
from boardnet_show.geometry.segments import Segments, edges

from .cones import DEGREE, ONE, PI
from .insets import inset
from .real_polygons import simple
from .turned_figures import placed, turns_left

LEAST = 2  # u of the draws' radius
STEP = 10_000_000  # u from the origin that are one more
DOUBLINGS = 20  # of a low way, till it is at half the angle
SCALE = 3 * ONE * ONE // 10**10  # squares of ways are divided by so much


def placed_outline(corners: Sequence[Point], degrees: Q) -> Figure:
    """An outline about the origin of a macro, turned: as `placed` has it without corners that stand twice; where
    `slants` does not take it and it does not meet itself ("turned outline", whole corners, angle)."""
    found = placed("outline", once(corners), degrees)
    return found[0] == "outline" and outline_of(corners, degrees) or found


def once(corners: Corners) -> List[Spot]:
    """Without those before their like."""
    return [p for p, q in edges(corners) if p != q]


def outline_of(corners: Sequence[Point], degrees: Q) -> Optional[Figure]:
    """Its corners after the whole quarter turns, and what is left; None where nothing is, or it meets itself."""
    found = turns_left(corners, degrees)
    around = found and once(found[0])
    return ("turned outline", *found) if found and simple(around, Segments(edges(around)), 0) else None


@lru_cache(4096)
def direction(angle: int) -> Tuple[int, int, int]:
    """The cosine and the sine of the angle, about, times n, and n."""
    x, y = ONE, angle * PI // (360 * DEGREE << DOUBLINGS)
    for _ in range(DOUBLINGS):
        x, y = max(0, x * x // ONE - y * y // ONE), min(ONE, 2 * (x * y // ONE))
    return max(0, x * x - y * y) // SCALE, 2 * x * y // SCALE, (x * x + y * y) // SCALE + 1


def turned_spots(corners: Corners, angle: int) -> List[Spot]:
    """The nearest whole spots to the turned corners."""
    x, y, n = direction(angle)
    return [(rounded(p * x - q * y, n), rounded(p * y + q * x, n)) for p, q in corners]


def radius_of(corners: Corners) -> int:
    """Spots and turned corners are at most so far apart."""
    return LEAST + max(abs(v) for p in corners for v in p) // STEP


@lru_cache(4096)
def outline_bounds(corners: Corners, angle: int) -> Both:
    """The pieces within and round an outline that is turned about the origin by less than a right angle."""
    spots, far = turned_spots(corners, angle), radius_of(corners)
    around = once(spots)
    found = inset(around, [far] * len(around))
    return [Area(found)] if found else [], [Area(spots), *(Capsule(a, b, far) for a, b in edges(spots))]
