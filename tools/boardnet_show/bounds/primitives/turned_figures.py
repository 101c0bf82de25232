"""Convex figures and discs of macros that are turned by no quarter turn, between contours of whole corners and discs
about whole spots, as the crate `slants` takes them.

How these were found does not matter: they are tested, at each turn of the cone of the angle.
"""
from fractions import Fraction as Q
from functools import lru_cache
from typing import Callable, List, Optional, Sequence, Tuple

from boardnet_show.geometry.capsule_polygons import is_convex
from boardnet_show.geometry.exact import cos_sin, turned
from boardnet_show.geometry.pieces import Area, Both, Capsule, Corners, Figure, Point, Spot
from boardnet_show.geometry.segments import cross, dot, edges

from .cones import DEGREE, RIGHT_ANGLE, cone_of, way_of
from .real_polygons import mitres, whole_corners

CORNERS = 500  # at most: each is compared with each edge
FARTHEST = 400  # u that a centre within a metre comes off
FURTHER = [Q(k, 2) for k in (1, 2, 3, 4, 6, 8, 12, 16, 32, 64, 128)]  # u that edges are tried further in or out
ORIGIN = (0, 0)


def placed(kind: str, corners: Sequence[Point], degrees: Q) -> Figure:
    """A figure about the origin of a macro, turned: ("turned", whole corners, angle) where the check takes bounds of
    it, else its corners."""
    return figure_of(corners, degrees) or (kind, [turned(p, cos_sin(degrees)) for p in corners])


def placed_disc(centre: Point, radius: Q, degrees: Q) -> Figure:
    """A disc so: ("turned disc", whole centre, radius, angle) or ("disc", centre, radius)."""
    found = turns_left([centre], degrees)
    if (
        found
        and radius.denominator == 1
        and found[0] != (ORIGIN,)
        and turned_disc_bounds(found[0][0], int(radius), found[1])
    ):
        return "turned disc", found[0][0], int(radius), found[1]
    return "disc", turned(centre, cos_sin(degrees)), radius


def figure_of(corners: Sequence[Point], degrees: Q) -> Optional[Figure]:
    """Its corners after the whole quarter turns, and what is left; None where nothing is left, or the check takes no
    bounds of it."""
    found = turns_left(corners, degrees) if len(corners) <= CORNERS else None
    return ("turned", *found) if found and turned_bounds(*found) else None


def turns_left(corners: Sequence[Point], degrees: Q) -> Optional[Tuple[Tuple[Spot, ...], int]]:
    """Whole corners after the whole quarter turns, and what is left; None where nothing is, or one is not whole."""
    quarters, angle = divmod(degrees * DEGREE, RIGHT_ANGLE)
    spots, is_whole = whole_corners(corners)
    if not angle or angle.denominator != 1 or not is_whole:
        return None
    for _ in range(quarters % 4):
        spots = [(-y, x) for x, y in spots]
    return tuple(spots), int(angle)


# ---- the check


def meet(u: Spot, v: Spot) -> Tuple[int, int, int]:
    """Where the tangents at two turns meet, by their ways: x / n and y / n; of one turn, its cosine and sine."""
    return u[0] * v[0] - u[1] * v[1], u[0] * v[1] + u[1] * v[0], u[0] * v[0] + u[1] * v[1]


def headings(first: Spot, last: Spot) -> Tuple[Tuple[int, int, int], ...]:
    """The three places of a cone: both turns, and where the tangents at them meet."""
    return meet(first, first), meet(first, last), meet(last, last)


def lean(b: Spot, c: Spot, heading: Tuple[int, int, int]) -> Tuple[int, int, int]:
    """How far a place (p, q), turned so about the origin, is on the left of the line from b to c, times n and the
    line's length: w + u p + v q."""
    (x, y, n), ahead, aside = heading, c[0] - b[0], c[1] - b[1]
    return cross(b, c, ORIGIN) * n, ahead * y - aside * x, ahead * x + aside * y


def goes_once(corners: Corners) -> bool:
    """Round them edges change at most twice between up and down, and some edge's line has the first corner beside
    it."""
    ups = [b[1] > a[1] for a, b in edges(corners) if a[1] != b[1]]
    changes = sum(a != b for a, b in zip(ups, ups[1:]))
    return changes <= 2 and any(cross(corners[0], b, c) for b, c in edges(corners))


def lies_round(figure: Corners, first: Spot, last: Spot, found: Corners) -> bool:
    """All corners of the figure are on one side of each edge, at the three places of the cone."""
    places, round_it = headings(first, last), edges(found)
    ways = round_it, [(c, b) for b, c in round_it]
    lies = lambda way: all(
        w + u * p + v * q >= 0 for b, c in way for w, u, v in (lean(b, c, d) for d in places) for p, q in figure
    )
    return goes_once(found) and any(map(lies, ways))


def lies_within(figure: Corners, first: Spot, last: Spot, found: Corners) -> bool:
    """The figure lies so round what was found, turned back."""
    (a, b), (c, d) = first, last
    return lies_round(found, (a, -b), (c, -d), figure)


def stays_near(centre: Spot, first: Spot, last: Spot, spot: Spot, far: int) -> bool:
    """The centre comes at most so far from the spot, at the three places of the cone."""
    still = far * far - dot(ORIGIN, centre, centre) - dot(ORIGIN, spot, spot)
    return all(
        still * n + 2 * dot(ORIGIN, centre, spot) * x + 2 * cross(ORIGIN, centre, spot) * y >= 0
        for x, y, n in headings(first, last)
    )


# ---- the discs


def turned_disc_bounds(centre: Spot, radius: int, angle: int) -> Optional[Both]:
    """The discs within and round one that is turned about the origin by less than a right angle; None where there is
    none round it."""
    cone, (x, y, n) = cone_of(angle), meet(way_of(angle), way_of(angle))
    spot = round(Q(centre[0] * x - centre[1] * y, n)), round(Q(centre[0] * y + centre[1] * x, n))
    by = next((far for far in range(1, FARTHEST) if stays_near(centre, *cone, spot, far)), None)
    disc = lambda r: [Capsule(spot, spot, r)]
    return (disc(radius - by) if by < radius else [], disc(radius + by)) if by else None


# ---- the contours


def area(corners: Corners) -> int:
    """Twice it; under 0 where they run clockwise."""
    return sum(cross(ORIGIN, a, b) for a, b in edges(corners))


def bends(corners: Corners) -> List[Spot]:
    """The corners counterclockwise, without those that stand twice or on straight ways."""
    spots = [v for k, v in enumerate(corners) if v != corners[k - 1]]
    if area(spots) < 0:
        spots.reverse()
    return [v for k, v in enumerate(spots) if cross(spots[k - 1], v, spots[(k + 1) % len(spots)])]


def near(corners: Corners, way: Spot, by: int) -> List[Spot]:
    """Whole corners near those of the turned figure with its edges moved outwards, or inwards by less than 0."""
    x, y, n = meet(way, way)
    return [(round((p * x - q * y) / n), round((p * y + q * x) / n)) for p, q in mitres(corners, -by)]


def first_of(
    near_by: Callable[[int], List[Spot]], is_within: Callable[[Corners], bool], is_round: Callable[[Corners], bool]
) -> Optional[Both]:
    """The first contour within and the first round a figure, of those so much further out: as pieces; None where there
    is none round it."""
    inner = next(
        (found for found in (list(near_by(-by)) for by in FURTHER) if area(found) > 0 and is_within(found)), None
    )
    outer = next((found for found in (list(near_by(by)) for by in FURTHER) if is_round(found)), None)
    return ([Area(inner)] if inner else [], [Area(outer)]) if outer else None


@lru_cache(4096)
def turned_bounds(corners: Corners, angle: int) -> Optional[Both]:
    """The pieces within and round a convex figure that is turned about the origin by less than a right angle; None
    where it is not convex, or there is none round it."""
    cone, shape = cone_of(angle), bends(corners)
    if not is_convex(shape):
        return None
    return first_of(
        lambda by: near(shape, way_of(angle), by),
        lambda found: lies_within(corners, *cone, found),
        lambda found: lies_round(corners, *cone, found),
    )
