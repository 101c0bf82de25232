"""Arcs about a whole centre between whole places, and chains of spots near them.

How a chain was found does not matter: how far it is from its arc is reckoned afterwards, over whole numbers, outwards.
"""
from fractions import Fraction as Q
from functools import cmp_to_key
from math import isqrt
from typing import Callable, List, Optional, Sequence, Tuple

from .exact import Refused, ceil_root, floor_root
from .pieces import Capsule, Corners, Number, Spot
from .segments import cross, dot

SAGITTA = 3600  # a chord leaves its arc by about 0.36 micrometres at most
Bounds = Tuple[List[Capsule], List[Capsule]]
UNLIKE = 64  # or by so small a part of what its ends are unlike in their distances from the centre


def directions(centre: Spot, start: Spot, end: Spot, is_whole: bool) -> Corners:
    """The axis directions strictly between start and end, or all but that of the start; counterclockwise."""
    a = (start[0] - centre[0], start[1] - centre[1])

    def rel(d: Spot) -> Spot:
        return a[0] * d[0] + a[1] * d[1], a[0] * d[1] - a[1] * d[0]

    def half(v: Spot) -> int:
        return 0 if v[1] > 0 or (v[1] == 0 and v[0] > 0) else 1

    def order(p: Spot, q: Spot) -> int:
        p, q = rel(p), rel(q)
        if half(p) != half(q):
            return half(p) - half(q)
        turn = p[0] * q[1] - p[1] * q[0]
        return -1 if turn > 0 else 1 if turn < 0 else 0

    b = (end[0] - centre[0], end[1] - centre[1])
    axes = [d for d in ((1, 0), (0, 1), (-1, 0), (0, -1)) if order(d, a) > 0 and (is_whole or order(d, b) < 0)]
    return sorted(axes, key=cmp_to_key(order))


def scaled(centre: Spot, d: Sequence[int], radius: int) -> Spot:
    """About centre + d * radius / |d|."""
    n = isqrt((d[0] * d[0] + d[1] * d[1]) << 40) or 1
    return centre[0] + rounded(d[0] * radius << 20, n), centre[1] + rounded(d[1] * radius << 20, n)


def rounded(a: int, b: int) -> int:
    return (2 * a + b) // (2 * b)


def axis_points(centre: Spot, start: Spot, end: Spot, radius: int, is_whole: bool) -> Corners:
    """start, spots on the axes between, end: neighbours are at most a right angle apart."""
    return [start, *(scaled(centre, d, radius) for d in directions(centre, start, end, is_whole or start == end)), end]


def arc_points(
    centre: Spot, start: Spot, end: Spot, radius: int, is_whole: bool = False, sagitta: int = SAGITTA
) -> Corners:
    """A chain of spots near the circle from start to end, neighbours at most about two sagittas' chord apart. A
    guess. Equal ends are the whole circle."""
    apart = min(radius * sagitta, radius * radius // 4)
    axes = axis_points(centre, start, end, radius, is_whole)
    keys = [
        p for k, p in enumerate(axes) if k in (0, len(axes) - 1) or min(dot(p, start, start), dot(p, end, end)) > apart
    ]
    out = [start]
    for p, q in zip(keys, keys[1:]):
        halve(centre, p, q, radius, out, 0, sagitta)
        out.append(q)
    return [p for k, p in enumerate(out) if k == 0 or p != out[k - 1]]


def halve(centre: Spot, p: Spot, q: Spot, radius: int, out: Corners, deep: int, sagitta: int) -> None:
    """Halves down to turns of about 25 degrees, then takes equal shares of the chord."""
    chord = dot(p, q, q)
    if 16 * chord > 3 * radius * radius and deep < 6:
        m = scaled(centre, (p[0] + q[0] - 2 * centre[0], p[1] + q[1] - 2 * centre[1]), radius)
        halve(centre, p, m, radius, out, deep + 1, sagitta)
        out.append(m)
        halve(centre, m, q, radius, out, deep + 1, sagitta)
        return
    steps = min(4096, isqrt(chord * 10 // (72 * radius * sagitta)) + 1)
    for k in range(1, steps):
        d = [(steps - k) * (p[j] - centre[j]) + k * (q[j] - centre[j]) for j in (0, 1)]
        out.append(scaled(centre, d, radius))


def goes_once(turn: Callable[[Spot, Spot], int], chain: Corners) -> bool:
    """Counterclockwise all along, by a cross product about the centre, and not past the direction of its first spot."""
    first, last = chain[0], len(chain) - 2
    for k, (p, q) in enumerate(zip(chain, chain[1:])):
        if turn(p, q) <= 0 or turn(first, p) < 0 <= turn(first, q) and not (k == last and turn(first, q) == 0):
            return False
    return True


def arc_chain(centre: Spot, start: Spot, end: Spot, is_whole: bool = False) -> Tuple[Corners, int]:
    """(spots, most): at each angle of the sweep chain and arc are at most `most` apart, for every curve whose
    distance from the centre stays between those of its ends; past half a turn its square may leave theirs by their
    difference, times one more than the centre's distance from the line through both, told in distances of the ends
    and rounded down. So the circle through both ends whose centre is nearest to the given one is such a curve,
    wherever it goes round that. Where no chain goes round once, its place is the whole disc about the centre."""
    near, far = sorted((dot(centre, start, start), dot(centre, end, end)))
    least, most = isqrt(near), ceil_root(far)
    if not least:
        return [start, end], 2 * most + 1
    turn = lambda p, q: cross(centre, p, q)
    # Draws along it are as wide as the ends are unlike: shorter chords would only be many that overlap.
    chain = arc_points(centre, start, end, (least + most) // 2, is_whole, max(SAGITTA, (most - least) // UNLIKE))
    chain = chain if goes_once(turn, chain) else axis_points(centre, start, end, most, is_whole)
    least, most = distances(centre, start, end)
    return (chain, leaves(centre, chain, least, most)) if goes_once(turn, chain) else ([start, end], 2 * most + 1)


def distances(centre: Spot, start: Spot, end: Spot) -> Tuple[int, int]:
    """The least and the greatest distance from the centre that a curve may have, rounded outwards."""
    near, far = sorted((dot(centre, start, start), dot(centre, end, end)))
    swing = cross(centre, start, end)
    spread = (far - near) * (-swing // dot(start, end, end) + 1) if swing < 0 else 0
    return isqrt(max(near - spread, 0)), ceil_root(far + spread)


def leaves(centre: Spot, chain: Corners, least: int, most: int) -> int:
    """By how much at most a chain is off any distance between both."""
    inner, outer = least, most
    for p, q in zip(chain, chain[1:]):
        inner = min(inner, isqrt(cross(centre, p, q) ** 2 // dot(p, q, q)))
        outer = max(outer, ceil_root(dot(centre, q, q)))
    return max(outer - least, most - inner)


def chain_bounds(chain: Corners, most: int, radius: Number) -> Bounds:
    """Draws along a chain: half a pen less or more."""
    low, high = radius.__floor__() - most, radius.__ceil__() + most
    pairs = list(zip(chain, chain[1:]))
    within: List[Capsule] = [Capsule(a, b, low) for a, b in pairs if low > 0]
    return within, [Capsule(a, b, high) for a, b in pairs if radius > 0]


def is_loop(centre: Spot, start: Spot, end: Spot) -> bool:
    """Whether both ends are in one direction from the centre at two distances: a whole turn, or none."""
    is_one_way = cross(centre, start, end) == 0 <= dot(centre, start, end)
    return is_one_way and dot(centre, start, start) != dot(centre, end, end)


def is_meant(centre: Spot, start: Spot, end: Spot) -> bool:
    """Whether the ends are in one line with the centre, or so alike in their distances that the circle through both
    with the nearest centre goes round it: as `IsMeant` of the crate `arcs` says it. Of another arc nobody knows where
    its copper is."""
    unlike, swing = abs(dot(centre, start, start) - dot(centre, end, end)), cross(centre, start, end)
    return swing == 0 or unlike <= dot(start, end, end) or unlike <= 2 * abs(swing)


def need_meant(centre: Spot, start: Spot, end: Spot) -> None:
    if not is_meant(centre, start, end):
        raise Refused("an arc whose ends are too unlike in their distances from its centre")


def draw_bounds(centre: Spot, start: Spot, end: Spot, radius: Number) -> Tuple[Optional[Corners], Bounds]:
    """(chain, draws below and above) of a draw counterclockwise; as the checks of the crate `arcs` take them, but
    where an end is the centre. Ends in one direction at two distances may be a whole turn apart or none: above is a
    whole turn, below nothing, and there is no chain."""
    if radius > 0:
        need_meant(centre, start, end)
    if is_loop(centre, start, end):
        return None, ([], chain_bounds(*arc_chain(centre, start, end, True), radius)[1])
    chain, most = arc_chain(centre, start, end)
    return chain, chain_bounds(chain, most, radius)


class Arc:
    """An arc in a contour, for LOWER: the circle through both ends whose centre is nearest to the given one.

    `ccw` tells the way it is walked. `inner` is a chain of chords in the disc, `outer` one of tangents outside it."""

    def __init__(self, centre: Spot, start: Spot, end: Spot, ccw: bool) -> None:
        self.ccw = ccw
        a, b = (start, end) if ccw else (end, start)
        d = (b[0] - a[0], b[1] - a[1])
        self.n = 2 * (d[0] ** 2 + d[1] ** 2) or 1
        shift = dot(centre, b, b) - dot(centre, a, a)
        self.c = tuple(centre[k] * self.n + shift * d[k] for k in (0, 1))  # times n
        self.a, self.b = a, b
        self.chain, _ = arc_chain(centre, a, b)
        self.square = self.off2(a)
        off = floor_root(self.square) // self.n
        self.sound = len(self.chain) > 2
        around = (round(Q(self.c[0], self.n)), round(Q(self.c[1], self.n)))
        least = isqrt(min(dot(centre, a, a), dot(centre, b, b)))
        radius = min(off, least)
        within = [scaled(around, (p[0] - around[0], p[1] - around[1]), radius - 3) for p in self.chain[1:-1]]
        self.inner = [a, *within, b]
        out = 4 + max(abs(isqrt(dot(around, p, p)) - off) for p in self.chain)
        self.outer = [a] + [self.tip(around, off, out, p, q) for p, q in zip(self.chain, self.chain[1:])] + [b]

    @staticmethod
    def tip(around: Spot, off: int, out: int, p: Spot, q: Spot) -> Spot:
        """Where the tangents of two neighbours meet, and a little further out. A guess."""
        m = (p[0] + q[0] - 2 * around[0], p[1] + q[1] - 2 * around[1])
        square = (m[0] ** 2 + m[1] ** 2) or 1
        m = (m[0] * (2 * off * off), m[1] * (2 * off * off))
        far = isqrt(m[0] ** 2 + m[1] ** 2) or 1
        x, y = (around[k] + rounded(m[k], square) + rounded(out * m[k], far) for k in (0, 1))
        return x, y

    def rel(self, p: Spot) -> Spot:
        return p[0] * self.n - self.c[0], p[1] * self.n - self.c[1]

    def off2(self, p: Spot) -> int:
        x, y = self.rel(p)
        return x * x + y * y

    def lies_inside(self) -> bool:
        return self.runs(self.inner) and all(self.off2(p) <= self.square for p in self.inner)

    def lies_outside(self) -> bool:
        """The chain starts and ends not towards the centre, and its other edges keep off the disc."""
        chain = self.outer
        ends = ((chain[0], chain[1]), (chain[-1], chain[-2]))
        if not self.runs(chain) or any(self.goes_towards(p, q) for p, q in ends):
            return False
        least = self.square * self.n**2
        return all(self.turn(p, q) ** 2 >= least * dot(p, q, q) for p, q in zip(chain[1:-1], chain[2:-1]))

    def goes_towards(self, p: Spot, q: Spot) -> bool:
        """Whether a line begins towards the centre."""
        x, y = self.rel(p)
        return x * (q[0] - p[0]) + y * (q[1] - p[1]) < 0

    def turn(self, p: Spot, q: Spot) -> int:
        (a, b), (c, d) = self.rel(p), self.rel(q)
        return a * d - b * c

    def runs(self, chain: Corners) -> bool:
        return goes_once(self.turn, chain)

    def leaves(self, chain: Corners) -> int:
        """How far chain and circle are apart at most, rounded up, and 1 at least."""
        most = 1
        for p, q in zip(chain, chain[1:]):
            low = floor_root(Q(self.turn(p, q) ** 2, self.n**4 * dot(p, q, q)))
            far = ceil_root(Q(max(self.off2(p), self.off2(q)), self.n**2))
            radius = floor_root(Q(self.square, self.n**2))
            most = max(most, radius + 1 - low, far - radius)
        return most

    def tangent(self, at_start: bool) -> Spot:
        """The direction of the arc away from its end, times n."""
        x, y = self.rel(self.a if at_start else self.b)
        return (-y, x) if at_start else (y, -x)
