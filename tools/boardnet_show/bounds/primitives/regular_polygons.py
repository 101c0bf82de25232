"""Regular polygons of macros between contours of whole corners, as the crate `slants` takes them.

How the corners were found does not matter: they are tested, at each turn of the cones of the polygon's directions.
"""
from fractions import Fraction as Q
from functools import lru_cache, partial
from typing import List, Optional, Tuple

from boardnet_show.geometry.pieces import Area, Both, Corners, Figure, Point, Spot
from boardnet_show.geometry.segments import edges

from .cones import DEGREE, RADIUS, RIGHT_ANGLE, cone_of, way_of
from .turned_figures import first_of, goes_once, headings, lean, meet, stays_near
from .turned_outlines import radius_of, turned_spots

MOST_DIAMETER = 500_000_000  # u
PARTS = 10_000  # of a u, in which diameters are counted
ORIGIN = (0, 0)


def figure_of(n: int, centre: Point, diameter: Q, degrees: Q) -> Optional[Figure]:
    """("regular", n, diameter in parts, angle, whole centre after the quarter turns, by what it is turned still) where
    `between` may read the polygon and takes bounds of it, else None."""
    angle, parts = degrees % 360 * DEGREE, diameter * PARTS
    if (
        parts.denominator != 1
        or diameter > MOST_DIAMETER
        or angle.denominator != 1
        or abs(degrees) > 1000
        or not all(v.denominator == 1 and abs(v) <= MOST_DIAMETER for v in centre)
    ):
        return None
    x, y = map(int, centre)
    for _ in range(int(angle // RIGHT_ANGLE)):
        x, y = -y, x
    found = int(n), int(parts), int(angle), (x, y), int(angle % RIGHT_ANGLE) if x or y else 0
    return ("regular", *found) if regular_bounds(*found) else None


def direction(n: int, angle: int, steps: int, spot: Spot) -> Tuple[Spot, int]:
    """A spot about the middle after the right angles to a direction, half steps from corner to corner on; and what is
    left of that, rounded down."""
    quarters, rest = divmod(angle + steps * 2 * RIGHT_ANGLE // n, RIGHT_ANGLE)
    for _ in range(quarters % 4):
        spot = -spot[1], spot[0]
    return spot, rest


# ---- the check


def lies_round(n: int, diameter: int, angle: int, found: Corners) -> bool:
    """All corners of the polygon are on the left of each edge, at each turn of their cones."""
    corners = [direction(n, angle, 2 * k, (-(-diameter // (2 * PARTS)), 0)) for k in range(n)]
    return goes_once(found) and all(
        w + u * p + v * q >= 0
        for (p, q), rest in corners
        for heading in headings(*cone_of(rest))
        for b, c in edges(found)
        for w, u, v in (lean(b, c, heading),)
    )


def lies_within(n: int, diameter: int, angle: int, found: Corners) -> bool:
    """What was found, turned back, is on the left of each edge of the polygon, at each turn of their cones."""
    inner = diameter * (way_of(4 * RIGHT_ANGLE // n)[0] - 1) // (2 * PARTS * RADIUS)
    for k in range(n):
        (b, rest), (c, _) = (direction(n, angle, 2 * k + 1, (inner, up)) for up in (0, 1))
        (x, y), (p, q) = cone_of(rest)
        if not all(
            w + u * i + v * j >= 0
            for heading in headings((x, -y), (p, -q))
            for w, u, v in (lean(b, c, heading),)
            for i, j in found
        ):
            return False
    return True


def shifted(spots: Corners, by: Spot) -> List[Spot]:
    return [(p - by[0], q - by[1]) for p, q in spots]


def at_corners(check, far, *parts):
    """What is found bounds the polygon about each corner of a square, by the spot that it is found about."""
    *polygon, found = parts
    return all(check(*polygon, shifted(found, (x, y))) for x in {-far, far} for y in {-far, far})


# ---- the contours


def near(n: int, diameter: int, angle: int, by: int) -> List[Spot]:
    """Whole corners near those of the polygon, so much further out."""
    for k in range(n):
        (p, q), rest = direction(n, angle, 2 * k, (Q(diameter, 2 * PARTS) + by, 0))
        x, y, whole = meet(*2 * (way_of(rest),))
        yield round((p * x - q * y) / whole), round((p * y + q * x) / whole)


def regular_bounds(n: int, diameter: int, angle: int, centre: Spot = ORIGIN, turn: int = 0) -> Optional[Both]:
    """The pieces within and round the polygon about the centre, which is turned about the origin; None where there is
    none round it."""
    spot, far = (turned_spots([centre], turn)[0], radius_of([centre])) if turn else (centre, 0)
    found = (
        bounds_about_0(n, diameter, angle, far) if not turn or stays_near(centre, *cone_of(turn), spot, far) else None
    )
    return found and tuple(
        [Area([(p + spot[0], q + spot[1]) for p, q in corners]) for (corners,) in side] for side in found
    )


@lru_cache(4096)
def bounds_about_0(n: int, diameter: int, angle: int, far: int) -> Optional[Both]:
    """So about each spot of a square round the origin."""
    further = lambda by: near(n, diameter, angle, by + (3 * far if by > 0 else -3 * far))
    return first_of(
        further,
        partial(at_corners, lies_within, far, n, diameter, angle),
        partial(at_corners, lies_round, far, n, diameter, angle),
    )
