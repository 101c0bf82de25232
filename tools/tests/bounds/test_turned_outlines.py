"""The bounds of tools/boardnet_show/bounds/primitives/turned_outlines.py, by fractions: how far corners are from where they come to, and how far contours are from draws."""
import math
import random
import unittest
from fractions import Fraction as Q

from boardnet_show.bounds.apertures.macros import rows
from boardnet_show.bounds.primitives.cones import cone_of
from boardnet_show.bounds.primitives.turned_outlines import outline_bounds, placed_outline
from boardnet_show.geometry.exact import cos_sin, exact
from boardnet_show.geometry.pieces import Area, Capsule
from tests.fixtures.real_shapes import RIGHT, Real, angles, has, macro_bounds

MM = 10**7


# ---- what is taken


def meet(u, v):
    """Where the tangents at two turns meet; of one turn, its cosine and sine."""
    n = u[0] * v[0] + u[1] * v[1]
    return Q(u[0] * v[0] - u[1] * v[1], n), Q(u[0] * v[1] + u[1] * v[0], n)


def come(corner, heading):
    (x, y), (c, s) = corner, heading
    return x * c - y * s, x * s + y * c


def square(a, b):
    return (a[0] - b[0]) ** 2 + (a[1] - b[1]) ** 2


def ways(corners):
    return list(zip(corners, [*corners[1:], corners[0]]))


def reach(corners):
    return 2 + max(max(abs(x), abs(y)) for x, y in corners) // MM


def is_above(corners, angle, pieces):
    """The turned corners to the nearest spot, in order, and a draw along each edge. Where they come to is within the radius of the spots, at each
    place of the cone."""
    (first, *draws), spots = pieces, pieces[0].corners
    low, high = cone_of(angle)
    places, (c, s) = [meet(low, low), meet(low, high), meet(high, high)], (
        sum(its) / 2 for its in cos_sin(Q(angle, MM))
    )
    are_near = all(
        abs(v - w) <= Q(1, 2) + Q(max(map(abs, p)), 10**9)
        for p, q in zip(corners, spots)
        for v, w in zip(come(p, (c, s)), q)
    )
    stay = all(square(come(p, place), q) <= reach(corners) ** 2 for p, q in zip(corners, spots) for place in places)
    return (
        isinstance(first, Area)
        and len(spots) == len(corners)
        and are_near
        and stay
        and draws == [Capsule(a, b, reach(corners)) for a, b in ways(spots)]
    )


def turn(a, b, c):
    return (b[0] - a[0]) * (c[1] - a[1]) - (b[1] - a[1]) * (c[0] - a[0])


def is_far(p, a, b, r):
    """A place is over r from each of a segment: from its ends, and where its foot is between them, from the line."""
    length, along = square(a, b), (b[0] - a[0]) * (p[0] - a[0]) + (b[1] - a[1]) * (p[1] - a[1])
    return min(square(p, a), square(p, b)) > r * r and (not 0 < along < length or turn(a, b, p) ** 2 > r * r * length)


def is_off(p, q, a, b, r):
    """Two segments are over r apart."""
    if any(max(p[k], q[k]) + r < min(a[k], b[k]) or max(a[k], b[k]) + r < min(p[k], q[k]) for k in (0, 1)):
        return True
    cross = turn(p, q, a) * turn(p, q, b) < 0 and turn(a, b, p) * turn(a, b, q) < 0
    return not cross and is_far(p, a, b, r) and is_far(q, a, b, r) and is_far(a, p, q, r) and is_far(b, p, q, r)


def is_in(p, corners):
    """An odd number of edges cross the ray from the place to the right."""
    return (
        sum((a[1] > p[1]) != (b[1] > p[1]) and (turn(a, b, p) > 0) == (b[1] > a[1]) for a, b in ways(corners)) % 2 == 1
    )


def is_below(spots, radius, points):
    """The area keeps off all draws along the edges, and lies in the outline."""
    return (
        all(is_off(p, q, a, b, radius) for p, q in ways(points) for a, b in ways(spots))
        and is_in(points[0], spots)
        and not any(is_in(spot, points) for spot in spots)
    )


# ---- outlines


def corner_box(rng, w, h):
    a, b = rng.randrange(1, w), rng.randrange(1, h)
    return [(0, 0), (w, 0), (w, b), (a, b), (a, h), (0, h)]


def slotted_box(rng, w, h):
    (a, c), b = sorted(rng.sample(range(1, w), 2)), rng.randrange(1, h)
    return [(0, 0), (w, 0), (w, h), (c, h), (c, b), (a, b), (a, h), (0, h)]


def comb(rng, w, h):
    count, low = rng.randrange(2, 12), rng.randrange(1, h)
    xs = [w * k // (2 * count - 1) for k in range(2 * count)]
    teeth = [(x, h if (k + at) % 2 else low) for k, x in enumerate(xs[1:-1], 1) for at in (0, 1)]
    return [(w, 0), (0, 0), (0, h), *teeth, (w, h)]


def star(rng, w, _):
    count = rng.randrange(3, 20)
    points = (
        (math.pi * (k + rng.uniform(-0.3, 0.3)) / count, w * (rng.uniform(0.6, 1) if k % 2 else rng.uniform(0.1, 0.5)))
        for k in range(2 * count)
    )
    return [(round(r * math.cos(at)), round(r * math.sin(at))) for at, r in points]


def part_of_ring(rng, w, _):
    count, start, wide, inner = rng.randrange(3, 30), rng.uniform(0, 7), rng.uniform(0.5, 5.8), rng.uniform(0.2, 0.9)
    at = lambda k, r: (round(r * math.cos(start + wide * k / count)), round(r * math.sin(start + wide * k / count)))
    return [at(k, w) for k in range(count + 1)] + [at(k, inner * w) for k in range(count, -1, -1)]


def outlines(rng, least=2, most=8.5):
    """One of each kind, about any place, from any corner on, either way round."""
    for kind in (corner_box, slotted_box, comb, star, part_of_ring):
        size = int(10 ** rng.uniform(least, most))
        at, found = rng.choice(((0, 0), (rng.randint(-size, size), rng.randint(-size, size)))), kind(
            rng, *(rng.randint(size // 5 + 50, size + 50) for _ in "wh")
        )
        k = rng.randrange(len(found))
        yield tuple([(x + at[0], y + at[1]) for x, y in found[k:] + found[:k]][:: rng.choice((1, -1))])


class Outline(Real):
    """An outline, turned, with its exact answer for a place."""

    def __init__(self, rng, corners, angle):
        self.rng, self.code, self.corners, self.rotation = rng, 4, corners, Q(angle, 10**7)


class TestTurnedOutlines(unittest.TestCase):
    def test_the_bounds_are_taken(self):
        rng = random.Random(71)
        for angle in angles(rng, 20):
            for corners in outlines(rng):
                below, above = outline_bounds(corners, angle)
                with self.subTest(angle=angle, corners=corners):
                    self.assertTrue(is_above(corners, angle, above))
                    self.assertTrue(
                        len(below) < 2
                        and all(is_below(above[0].corners, reach(corners), points) for (points,) in below)
                    )

    def test_something_lies_below(self):
        """But in what is under a nanometre wide, or nearly so."""
        rng = random.Random(72)
        for angle in angles(rng, 20):
            for corners in outlines(rng, 5):
                below, above = outline_bounds(corners, angle)
                if not below:
                    far = reach(corners) + 9
                    is_thin = any(
                        not is_off(*p, *q, 2 * far)
                        for k, p in enumerate(ways(corners))
                        for m, q in enumerate(ways(corners))
                        if abs(k - m) not in (0, 1, len(corners) - 1)
                    )
                    self.assertTrue(is_thin, (angle, corners))

    def test_places(self):
        """At the angle itself, near borders."""
        rng = random.Random(73)
        for angle in angles(rng, 20):
            for corners in outlines(rng, 3):
                real, (below, above) = Outline(rng, corners, angle), outline_bounds(corners, angle)
                for p in (real.near_border() for _ in range(8)):
                    truth = real.has(p)
                    with self.subTest(angle=angle, corners=corners, p=p):
                        self.assertFalse(has(below, p) and truth is False)
                        self.assertFalse(truth is True and not has(above, p))

    def test_turns_between(self):
        """At turns of the cone corners are within the radius of the spots, also a metre from the origin."""
        rng = random.Random(74)
        for angle in angles(rng, 60):
            corners = [
                tuple(rng.randint(-far, far) for _ in "xy") for far in (9, MM - 1, MM, 10 * MM, 10**9, 10**10)
            ]
            (u, v), (p, q) = cone_of(angle)
            for corner in corners:
                (((spot, *_),), *_) = outline_bounds(
                    (corner, (corner[0] + 1, corner[1]), (corner[0], corner[1] + 1)), angle
                )[1]
                for i, j in ((1, 0), (0, 1), (1, 1), (rng.randrange(99), rng.randrange(1, 99))):
                    way = i * u + j * p, i * v + j * q
                    self.assertLessEqual(
                        square(come(corner, meet(way, way)), spot), reach([corner]) ** 2, (angle, corner)
                    )

    def test_what_is_not_taken(self):
        """A draw that is wider, a spot that is further off, an area that comes to a draw or lies elsewhere."""
        corners, angle = ((0, 0), (2 * MM, 0), (2 * MM, 2 * MM), (MM, MM), (0, 2 * MM)), RIGHT // 2
        below, above = outline_bounds(corners, angle)
        (spots,), (points,) = above[0], below[0]
        self.assertTrue(is_above(corners, angle, above) and is_below(spots, 4, points))
        self.assertFalse(
            is_above(corners, angle, [*above[:-1], (*above[-1][:3], 5)]) or is_above(corners, angle, above[:-1])
        )
        self.assertFalse(is_above(corners, angle, [Area([(1, 0), *spots[1:]]), *above[1:]]))
        self.assertFalse(
            is_below(spots, 4, spots)
            or is_below(spots, 6 + 2, points)
            or is_below(spots[::-1], 4, [(9 * x, 9 * y) for x, y in points])
        )


class TestRows(unittest.TestCase):
    """Rows: corners in mm, degrees, the kind that is found, and how many pieces of both sides it has."""

    DART = [(0, 0), (2, 0), (2, 2), (1, 1), (0, 2)]
    ROWS = [
        ("a corner inwards", DART, 45, "turned outline", (1, 6)),
        ("the other way round", DART[::-1], Q("-22.5"), "turned outline", (1, 6)),
        ("past quarter turns", DART, 930, "turned outline", (1, 6)),
        ("by quarter turns", DART, 270, "outline", (1, 1)),
        ("a corner twice", [*DART[:3], (2, 2), *DART[3:]], 30, "turned outline", (1, 7)),
        ("the first corner once more", [*DART, (0, 0)], 30, "turned outline", (1, 7)),
        ("a spot on a straight way", [*DART[:1], (1, 0), *DART[1:]], 30, "turned outline", (1, 7)),
        ("convex", DART[:3], 30, "turned", (1, 1)),
        (
            "convex, of many corners",
            [(round(Q(math.cos(k * math.pi / 300)), 6), round(Q(math.sin(k * math.pi / 300)), 6)) for k in range(600)],
            30,
            "turned outline",
            (1, 601),
        ),
        ("thin", [(0, 0), (1, 0), (1, Q(6, MM)), (Q(1, 2), Q(5, MM)), (0, Q(6, MM))], 30, "turned outline", (0, 6)),
        ("thinner", [(0, 0), (1, 0), (1, Q(2, MM)), (Q(1, 2), Q(1, MM)), (0, Q(2, MM))], 30, "turned outline", (0, 6)),
        ("short edges", [*DART[:2], (2, Q(1, MM)), *DART[2:], (Q(-1, MM), 2)], 30, "turned outline", (1, 8)),
        ("which meets itself", [(0, 0), (1, 1), (1, 0), (0, 1)], 30, "outline", None),
        ("there and back", [(0, 0), (1, 1), (2, 2), (1, 1)], 30, "outline", None),
        ("with a slit", [(0, 0), (2, 0), (2, 2), (1, 2), (1, 1), (1, 2), (0, 2)], 30, "outline", None),
        ("off the grid", [*DART[:4], (0, Q(1, 3))], 30, "outline", None),
        ("parts of a part of a degree", DART, Q("30.00000001"), "outline", None),
    ]

    def test_rows(self):
        for name, corners, degrees, kind, told in self.ROWS:
            found = placed_outline([(exact(x * MM), exact(y * MM)) for x, y in corners], Q(degrees))
            with self.subTest(name):
                self.assertEqual((found[0], rows([found])), (kind, told and [told]))

    def test_in_a_macro(self):
        """Its pieces stand in the order of the primitives."""
        dart = ",".join(f"{v}" for spot in [*self.DART, self.DART[0]] for v in spot)
        low, high, lost = macro_bounds(["1,1,1,5,5", f"4,1,5,{dart},$1", "21,1,1,2,0,0,$1"], [Q(30)], MM)
        self.assertEqual(([len(low), len(high)], lost), ([3, 8], 0))
        self.assertEqual(([low[1]], high[1:7]), outline_bounds(tuple((x * MM, y * MM) for x, y in self.DART), 30 * MM))
        self.assertEqual([type(piece) for piece in high], [Capsule, Area, *[Capsule] * 5, Area])

    def test_whole_turns_are_made_first(self):
        corners = [(exact(x * MM), exact(y * MM)) for x, y in self.DART]
        for k in range(-4, 5):
            kind, found, angle = placed_outline(corners, Q(30 + 90 * k))
            (c, _), (s, _) = cos_sin(Q(90 * k))
            self.assertEqual(
                (kind, angle, found),
                (
                    "turned outline",
                    30 * MM,
                    tuple((x * c - y * s, x * s + y * c) for x, y in ((p * MM, q * MM) for p, q in self.DART)),
                ),
            )


if __name__ == "__main__":
    unittest.main()
