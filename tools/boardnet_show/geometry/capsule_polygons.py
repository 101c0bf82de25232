"""Round pieces as polygons of whole corners, within them or round them. How the corners were found does not matter:
they are tested."""
from functools import lru_cache, partial
from math import isqrt
from typing import List, Optional, Tuple

from .arcs import arc_points, goes_once, rounded, scaled
from .exact import Refused, ceil_root
from .pieces import Area, Capsule, Corners, Piece, Spot
from .segments import cross, dot, edges

SMALL = 8


def polygon(piece: Piece, outer: bool) -> Optional[Corners]:
    """The corners of a piece, or of a polygon in it or round it; None where there is none in it."""
    if isinstance(piece, Area):
        return piece.corners
    a, b, radius = piece
    if radius <= 0:
        return None
    found = round_it(b[0] - a[0], b[1] - a[1], radius) if outer else in_it(b[0] - a[0], b[1] - a[1], radius)
    return found and [(x + a[0], y + a[1]) for x, y in found]


def normals(dx: int, dy: int, radius: int) -> Corners:
    """Places on a circle, counterclockwise, from the right side of a direction to its left side."""
    if not dx and not dy:
        dx = 1
    right, left = scaled((0, 0), (dy, -dx), radius), scaled((0, 0), (-dy, dx), radius)
    ahead = scaled((0, 0), (dx, dy), radius)
    one, two = arc_points((0, 0), right, ahead, radius), arc_points((0, 0), ahead, left, radius)
    return one + two[1:]


@lru_cache(4096)
def in_it(dx: int, dy: int, radius: int) -> Optional[Corners]:
    """All corners lie in the piece and not on its border, and it is convex."""
    within = radius - 1 if radius < SMALL else radius - 2
    if radius < SMALL:
        found = [(within, 0), (0, within), (-within, 0), (0, -within)]
    else:
        half = normals(dx, dy, within)
        found = [(x + dx, y + dy) for x, y in half] + [(-x, -y) for x, y in half]
    is_in = within and all(min(dot((0, 0), p, p), dot((dx, dy), p, p)) < radius * radius for p in found)
    return found if is_in else None


@lru_cache(4096)
def round_it(dx: int, dy: int, radius: int) -> Corners:
    """Convex, and both ends lie left of each side, over a radius from it."""
    for more in (3, 8, 64):
        half = normals(dx, dy, max(radius, SMALL) + more)
        tips = [tip(p, q, max(radius, SMALL) + more) for p, q in zip(half, half[1:])]
        found = [(x + dx, y + dy) for x, y in tips] + [(-x, -y) for x, y in tips]
        if is_convex(found) and all(keeps_off(p, q, c, radius) for p, q in edges(found) for c in ((0, 0), (dx, dy))):
            return found
    raise Refused("no polygon round a round piece")


def tip(p: Spot, q: Spot, radius: int) -> Spot:
    """Where the tangents at two places of a circle meet, about."""
    x, y = p[0] + q[0], p[1] + q[1]
    square = x * x + y * y
    return rounded(2 * radius * radius * x, square), rounded(2 * radius * radius * y, square)


def is_convex(corners: Corners) -> bool:
    """Turns left at each corner, and once round: its sides begin to rise once."""
    rises = [b[1] > a[1] or b[1] == a[1] and b[0] > a[0] for a, b in edges(corners)]
    left = all(cross(corners[k - 2], corners[k - 1], corners[k]) > 0 for k in range(len(corners)))
    return left and sum(rises[k] and not rises[k - 1] for k in range(len(rises))) == 1


def keeps_off(p: Spot, q: Spot, c: Spot, radius: int) -> bool:
    turn = cross(p, q, c)
    return turn > 0 and turn * turn > radius * radius * dot(p, q, q)


def ring(centre: Spot, chain: Corners, high: int) -> Optional[Tuple[List[Corners], List[Corners]]]:
    """(inner, outer): areas for a draw along an arc with half a pen of over `high` - 1 and at most `high`, by its
    chain counterclockwise; None where it is too small. Every curve counts whose distances from the centre are within
    `least` and `most`: those of the ends, and past half a turn as much further as they differ.

    The corners of an inner one lie within `low` of a link of a finer chain, the centre where the pen is so wide. At
    each angle link and curve are at most `slack` less 8 apart, at the ends by 2 beside it, so all of it lies in the
    draw. Where a place of the draw lies at an angle of the arc, its distance from the centre is within `high` of the
    curve's, so in an outer area. Elsewhere an end is the nearest of a circular arc, so it lies in the disc about
    that, wider by what the distances differ and the rounding."""
    offs = [dot(centre, p, p) for p in (chain[0], chain[-1])]
    near, far = isqrt(min(offs)), ceil_root(max(offs))
    bent = far - near if cross(centre, chain[0], chain[-1]) < 0 and offs[0] != offs[1] else 0
    least, most = near - bent, far + bent
    wide, slim = most + high, max(0, least - high)
    if least < 1000 or len(chain) < 3:
        return None
    out = partial(out_from, centre)
    fine = arc_points(centre, out(chain[0], wide), out(chain[-1], wide), wide)
    if not goes_once(lambda p, q: cross(centre, p, q), fine):
        return None
    links = [out(p, (near + far) // 2) for p in fine]
    deep = min(isqrt(cross(centre, p, q) ** 2 // dot(p, q, q)) for p, q in zip(links, links[1:]))
    reach = max(ceil_root(dot(centre, p, p)) for p in links)
    slack = max(most - deep, reach - least) + 8
    low = high - 1 - slack
    if low < 1000:
        return None
    inner = band_within(centre, fine, links, low, low < reach)
    outer = band_round(centre, fine, wide, slim)
    if not inner or not outer:
        return None
    within, outside = at_ends(chain, high - 1, high + 4 * (far - near) + 8)
    return [inner] + within, [outer] + outside


def band_within(centre: Spot, fine: Corners, links: Corners, low: int, is_open: bool) -> Optional[Corners]:
    """What lies within `low` of the links of a chain, beside which a finer one goes; to the centre where it is not
    open. None where a corner would be further off."""
    off = [(x - centre[0], y - centre[1]) for x, y in (out_from(centre, p, low - 2) for p in fine)]
    if any(dot((0, 0), p, p) > low * low for p in off):
        return None
    sides = [
        [(p[0] + s * x, p[1] + s * y) if s > 0 or is_open else centre for p, (x, y) in zip(links, off)] for s in (1, -1)
    ]
    return band(*sides)


def band_round(centre: Spot, fine: Corners, wide: int, slim: int) -> Optional[Corners]:
    """What goes round all from `slim` to `wide` away from the centre; None where a corner or an edge would be
    within."""
    step = max(dot(p, q, q) for p, q in zip(fine, fine[1:]))
    tops = [out_from(centre, p, wide + step // (4 * wide) + 8) for p in fine]
    feet = [out_from(centre, p, slim - 2) if slim > 2 else centre for p in fine]
    if any(dot(centre, p, p) > slim * slim for p in feet):
        return None
    is_round = all(keeps_off(p, q, centre, wide) for p, q in zip(tops, tops[1:]))
    return band(tops, feet) if is_round else None


def out_from(centre: Spot, p: Spot, by: int) -> Spot:
    """The place in a direction from a centre that is about so far away."""
    return scaled(centre, (p[0] - centre[0], p[1] - centre[1]), by)


def band(one: Corners, two: Corners) -> Corners:
    """What lies between two chains that go round a centre by the same angles, at most once: an area, round a whole
    turn with a cut."""
    return one + [spot for k, spot in enumerate(reversed(two)) if not k or spot != two[-k]]


def at_ends(chain: Corners, inner: int, outer: int) -> Tuple[List[Corners], List[Corners]]:
    """(inner, outer): areas within and round discs about both ends of a chain."""
    ends = {chain[0], chain[-1]}
    within = [polygon(Capsule(end, end, inner), False) for end in ends]
    outside = [polygon(Capsule(end, end, outer), True) for end in ends]
    return [found for found in within if found], [found for found in outside if found]
