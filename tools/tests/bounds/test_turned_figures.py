"""The contours of tools/boardnet_show/bounds/primitives/turned_figures.py, by the arithmetic of the checks in crates/slants, written anew from their definitions."""
import math
import random
import unittest
from fractions import Fraction as Q

from boardnet_show.bounds.apertures.macros import bounds_of, figures, regular, rows
from boardnet_show.bounds.primitives.cones import cone_of
from boardnet_show.bounds.primitives.regular_polygons import PARTS, regular_bounds
from boardnet_show.bounds.primitives.turned_figures import turned_bounds
from boardnet_show.geometry.exact import cos_sin, cross_least, exact, minus, plus, pointed, times, turned
from boardnet_show.geometry.pieces import Area
from boardnet_show.geometry.segments import cross, dot, edges
from tests.fixtures.real_shapes import METRE, RIGHT, angles, are_placed, macro_bounds

MOST_PART, MM = 10**8, 10**7
ROT_RECT, OUTLINE, FREE = (
    ["21,1,$1,$2,0,0,$3"],
    ["4,1,4,$1,$2,$3,$4,$5,$6,$7,$8,$1,$2,$9"],
    ["4,1,5,0,0,1,0,2,1,1,2,0,1,0,0,$1"],
)
TRAPEZOID = [-1, Q(-1, 2), 1, Q(-1, 2), Q(7, 10), Q(1, 2), Q(-7, 10), Q(1, 2)]


def changes(up, ways):
    """How often they change between up and down; a level one goes on as before."""
    count = 0
    for a, b in ways:
        was, up = up, b[1] > a[1] or up and b[1] == a[1]
        count += was != up
    return count


def goes_round(points):
    """It is closed, changes at most twice between up and down, and has its first corner beside the line of some edge."""
    if not points or points[0] != points[-1]:
        return False
    ways = list(zip(points, points[1:]))
    return min(changes(True, ways), changes(False, ways)) <= 2 and any(cross(points[0], a, b) for a, b in ways)


def lean_of(about, to, b, c, heading, q):
    x, y, n = heading
    return cross(b, c, to) * n + (cross(b, c, q) - cross(b, c, about)) * x + (dot(b, c, q) - dot(b, c, about)) * y


def is_above(figure, first, last, about, to, points):
    """A figure, turned about a spot that comes to another, is on the left of each edge at three headings, or of each from its end to its start."""
    meet = lambda u, v: (u[0] * v[0] - u[1] * v[1], u[0] * v[1] + u[1] * v[0], u[0] * v[0] + u[1] * v[1])
    is_ready = max(abs(v) for way in (first, last) for v in way) <= MOST_PART and are_placed(
        [about, to, *figure, *points]
    )
    is_closed = len(figure) > 3 and figure[0] == figure[-1]
    headings = meet(first, first), meet(first, last), meet(last, last)
    leans = lambda b, c: all(lean_of(about, to, b, c, heading, q) >= 0 for q in figure for heading in headings)
    ways = list(zip(points, points[1:]))
    return (
        is_ready
        and is_closed
        and goes_round(points)
        and (all(leans(b, c) for b, c in ways) or all(leans(c, b) for b, c in ways))
    )


def is_below(figure, first, last, about, to, points):
    back = lambda way: (way[0], -way[1])
    return is_above(points, back(first), back(last), to, about, figure)


def ring(corners, at=(0, 0)):
    return [(x + at[0], y + at[1]) for x, y in (*corners, corners[0])]


def outlines(rng):
    """Rectangles and other convex figures, either way round, within some 30 mm of the origin."""
    size = int(10 ** rng.uniform(1.5, 8.3))
    w, h, x, y = (rng.randint(8, 8 + size) for _ in range(4))
    yield [(-w, -h), (w, -h), (w, h), (-w, h)]
    yield [(x, y), (x + w, y), (x + w, y + h), (x, y + h)]
    left, right = (rng.randint(-min(w, h) // 2, 2 * h) for _ in "lr")
    yield [(-w, -h), (w, -h), (w + right, h), (-w - left, h)]
    yield either_way(rng, chamfered(rng, w + 30, h + 30))
    yield either_way(rng, rounded_off(rng, size + 9999, rng.randrange(3, 25)))


def either_way(rng, corners):
    """From any corner on, either way round."""
    at = rng.randrange(len(corners))
    return (corners[at:] + corners[:at])[:: rng.choice((1, -1))]


def chamfered(rng, w, h):
    """A box without its corners, or some of them."""
    a, b, c, d = (rng.choice((0, rng.randint(1, min(w, h) // 2))) for _ in range(4))
    found = [(-w, a - h), (a - w, -h), (w - b, -h), (w, b - h), (w, h - c), (w - c, h), (d - w, h), (-w, h - d)]
    return [v for k, v in enumerate(found) if v != found[k - 1]]


def rounded_off(rng, r, count):
    """So many corners on an ellipse."""
    turns, flat = (2 * math.pi * (k + rng.uniform(0, 0.4)) / count for k in range(count)), rng.uniform(0.5, 1)
    return [(round(r * math.cos(turn)), round(r * flat * math.sin(turn))) for turn in turns]


def counterclockwise(corners):
    return corners[:: 1 if sum(cross((0, 0), a, b) for a, b in edges(corners)) > 0 else -1]


def is_small(corners):
    """It may be that nothing is within, of a rectangle or a figure with level edges."""
    return (
        len(corners) == 4
        and min(corners[2][1] - corners[1][1], corners[1][0] - corners[0][0], corners[2][0] - corners[3][0]) < 24
    )


class TestDegrees(unittest.TestCase):
    def test_the_contours_are_taken(self):
        """Wherever they are flashed; nothing below only where the figure is small."""
        rng = random.Random(63)
        for angle in angles(rng, 120):
            (first, last), at = cone_of(angle), tuple(rng.randint(-METRE // 2, METRE // 2) for _ in "xy")
            for corners in outlines(rng):
                below, above = turned_bounds(tuple(corners), angle)
                with self.subTest(angle=angle, corners=corners, at=at):
                    ((outer,),) = above
                    self.assertTrue(is_above(ring(corners, at), first, last, at, at, ring(outer, at)))
                    self.assertTrue(
                        not below or is_below(ring(corners, at), first, last, at, at, ring(below[0].corners, at))
                    )
                    self.assertTrue(below or is_small(corners))

    def test_the_figure_lies_between(self):
        """By intervals, at the angle itself."""
        rng = random.Random(64)
        for angle in angles(rng, 60):
            turn = cos_sin(Q(angle, 10**7))
            for corners in outlines(rng):
                (below, above), real = turned_bounds(tuple(corners), angle), [
                    turned(pointed(p), turn) for p in counterclockwise(corners)
                ]
                with self.subTest(angle=angle, corners=corners):
                    self.assertTrue(
                        all(
                            cross_least(a, b, pointed(q)) >= 0
                            for (inner,) in below
                            for q in inner
                            for a, b in edges(real)
                        )
                    )
                    self.assertTrue(
                        all(
                            cross_least(pointed(a), pointed(b), q) >= 0
                            for a, b in edges(above[0].corners)
                            for q in real
                        )
                    )

    def test_they_are_close(self):
        """Of a rectangle within 9 mm of the origin each corner is under 5 u from its place."""
        rng = random.Random(65)
        for angle in angles(rng, 100):
            c, s = (f(math.radians(angle / 10**7)) for f in (math.cos, math.sin))
            w, h, x, y = (rng.randrange(10, 3 * 10**7) for _ in range(4))
            corners = [(x, y), (x + w, y), (x + w, y + h), (x, y + h)]
            for ((found,),) in turned_bounds(tuple(corners), angle):
                off = max(math.hypot(p * c - q * s - u, p * s + q * c - v) for (p, q), (u, v) in zip(corners, found))
                self.assertLess(off, 5, (angle, corners, found))

    def test_one_u_more_is_refused(self):
        """A square of 2 mm, turned by 45 degrees: an edge that is 3 u further in above, or further out below."""
        square, (first, last) = [(-MM, -MM), (MM, -MM), (MM, MM), (-MM, MM)], cone_of(RIGHT // 2)
        ((inner,),), ((outer,),) = turned_bounds(tuple(square), RIGHT // 2)
        origin = (0, 0)
        for k in range(4):
            x, y = ((1, -1), (1, 1), (-1, 1), (-1, -1))[k]  # the way out of the edge from corner k on
            other = lambda corners, by: [
                (p + by * x, q + by * y) if at in (k, (k + 1) % 4) else (p, q) for at, (p, q) in enumerate(corners)
            ]
            self.assertFalse(is_above(ring(square), first, last, origin, origin, ring(other(outer, -3))))
            self.assertFalse(is_below(ring(square), first, last, origin, origin, ring(other(inner, 3))))
        self.assertTrue(is_above(ring(square), first, last, origin, origin, ring(outer[::-1])))
        self.assertTrue(is_below(ring(square[::-1]), first, last, origin, origin, ring(inner)))

    def test_the_cone_holds_the_angle(self):
        """Its ways are on both sides of that by half the angle, and the check takes them."""
        rng = random.Random(66)
        for angle in [*angles(rng, 500), *range(RIGHT // 360, RIGHT, RIGHT // 360)]:
            first, last = cone_of(angle)
            c, s = cos_sin(Q(angle, 2 * 10**7))
            turn = lambda way: plus(times(exact(way[0]), s), minus(times(exact(way[1]), c)))
            self.assertTrue(turn(first)[0] > 0 > turn(last)[1] and max(map(abs, first + last)) <= MOST_PART, angle)


class TestPolygons(unittest.TestCase):
    """Regular polygons by intervals of their corners: what is found within has its corners left of all edges, what is found round them has all corners left of its own."""

    def test_bounds(self):
        rng = random.Random(67)
        for n in 4 * list(range(3, 13)):
            d, angle = rng.randrange(
                100 * PARTS, rng.choice((2 * 10**3, 2 * 10**5, 2 * 10**7, 5 * 10**8)) * PARTS
            ), rng.choice((0, RIGHT // 4, rng.randrange(4 * RIGHT)))
            corners = regular(n, 0, 0, Q(d, PARTS), Q(angle, 10**7))
            ([(inner,)], [(outer,)]) = regular_bounds(n, d, angle)
            with self.subTest(f"{n} {d} {angle}"):
                self.assertTrue(all(cross_least(a, b, pointed(w)) >= 0 for a, b in edges(corners) for w in inner))
                self.assertTrue(
                    all(cross_least(pointed(a), pointed(b), v) >= 0 for a, b in edges(outer) for v in corners)
                )
                self.assertLess(max(abs(p - q) for a, b in zip(inner, outer) for p, q in zip(a, b)), 60)

    def test_polygons_off_the_origin(self):
        rng = random.Random(68)
        for n in 4 * list(range(3, 13)):
            far = rng.choice((10**3, 10**5, 10**7, 5 * 10**8))
            d, angle, centre = (
                rng.randrange(10**3 * PARTS, 2 * 10**7 * PARTS),
                rng.randrange(1, 4 * RIGHT),
                (rng.randint(-far, far), rng.randint(1, far)),
            )
            quarters, turn = divmod(angle, RIGHT)
            at = turned(tuple(map(exact, centre)), cos_sin(Q(turn, 10**7)))
            corners = [(plus(p, at[0]), plus(q, at[1])) for p, q in regular(n, 0, 0, Q(d, PARTS), Q(angle, 10**7))]
            ([(inner,)], [(outer,)]) = regular_bounds(n, d, angle, centre, turn)
            with self.subTest(f"{n} {d} {angle} {centre}"):
                self.assertTrue(all(cross_least(a, b, pointed(w)) >= 0 for a, b in edges(corners) for w in inner))
                self.assertTrue(
                    all(cross_least(pointed(a), pointed(b), v) >= 0 for a, b in edges(outer) for v in corners)
                )
                self.assertLess(
                    max(abs(p - q) for a, b in zip(inner, outer) for p, q in zip(a, b)), 60 + far // 10**6
                )


class TestFigures(unittest.TestCase):
    """Rows: a body, parameters, and of each figure its kind and how many pieces of both sides it has; None where `between` reads some otherwise."""

    ROWS = [
        ("RotRect of KiCad", ROT_RECT, [2, 1, 30], ["turned"], [(1, 1)]),
        ("by quarter turns", ROT_RECT, [2, 1, 90], ["convex"], [(1, 1)]),
        ("by others", ROT_RECT, [2, 1, -450], ["convex"], [(1, 1)]),
        ("Outline4P", OUTLINE, [*TRAPEZOID, Q("-22.5")], ["turned"], [(1, 1)]),
        ("Outline4P by quarter turns", OUTLINE, [*TRAPEZOID, 180], ["outline"], [(1, 1)]),
        (
            "Outline4P the other way round",
            OUTLINE,
            [*(v for k in (6, 4, 2, 0) for v in TRAPEZOID[k : k + 2]), 30],
            ["turned"],
            [(1, 1)],
        ),
        ("FreePoly", FREE, [270], ["outline"], [(1, 1)]),
        ("FreePoly at an angle", FREE, [1], ["turned"], [(1, 1)]),
        ("a triangle", ["4,1,3,0,0,1,0,0,1,0,0,$1"], [45], ["turned"], [(1, 1)]),
        (
            "a chamfered box",
            ["4,1,8,-1,-.5,-.8,-.7,.8,-.7,1,-.5,1,.5,.8,.7,-.8,.7,-1,.5,-1,-.5,$1"],
            [Q("12.3456789")],
            ["turned"],
            [(1, 1)],
        ),
        ("one with spots on straight ways", ["4,1,6,0,0,1,0,2,0,2,0,2,2,0,2,0,0,$1"], [45], ["turned"], [(1, 1)]),
        ("a corner twice on a side that rises", ["4,1,4,1,1,1,1,0,2,0,0,1,1,$1"], [1], ["turned"], [(1, 1)]),
        ("a corner inwards", ["4,1,5,0,0,2,0,2,2,1,1,0,2,0,0,$1"], [45], ["turned outline"], [(1, 6)]),
        ("a star, twice round", ["4,1,5,0,1,.6,-.8,-1,.3,1,.3,-.6,-.8,0,1,$1"], [45], ["outline"], None),
        ("a line there and back", ["4,1,3,0,0,1,1,2,2,0,0,$1"], [45], ["outline"], None),
        (
            "of Altium",
            ["21,1,0.6,0.4,0,0,45.0", "21,1,0.4,0.6,0,0,45.0", "1,1,0.2,0.1,0.3"],
            [],
            ["turned", "turned", "disc"],
            [(1, 1), (1, 1), (1, 1)],
        ),
        ("a sum", ["21,1,1,1,1,0,$1+$2-.5"], [45, Q("45.5")], ["convex"], [(1, 1)]),
        ("no sum of whole turns", ["21,1,1,1,1,0,$1+$2"], [45, Q("45.5")], ["turned"], [(1, 1)]),
        (
            "a line along an axis",
            ["20,1,0.2,0,0,1,0,10", "2,1,0.2,0,0,0,1,10"],
            [],
            ["turned", "turned"],
            [(1, 1), (1, 1)],
        ),
        ("a slanted line", ["20,1,0.2,0,0,1,1,90"], [], ["line"], [(1, 1)]),
        ("a slanted line, turned", ["20,1,0.2,0,0,1,1,30"], [], ["convex"], None),
        ("a disc at the origin", ["1,1,0.2,0,0,30"], [], ["disc"], [(1, 1)]),
        ("a disc off the origin", ["1,1,0.2,1,0,30"], [], ["turned disc"], [(1, 1)]),
        ("a disc off the origin, by quarter turns", ["1,1,0.2,1,0,90"], [], ["disc"], [(1, 1)]),
        (
            "nothing below",
            ["4,1,4,0,0,1e,0,1e,1e,0,1e,0,0,30".replace("1e", ".0000001"), "21,1,0,1,0,0,30"],
            [],
            ["turned"],
            [(0, 1)],
        ),
        ("an odd width", ["21,1,0.0000003,1,0,0,30"], [], ["convex"], None),
        ("parts of a part of a degree", ["21,1,1,1,0,0,30.00000001"], [], ["convex"], None),
        ("a polygon", ["5,1,5,0,0,1,30"], [], ["regular"], [(1, 1)]),
        ("an octagon by parameters", ["5,1,8,0,0,$1,22.5"], [2], ["regular"], [(1, 1)]),
        ("a product off the grid, of Eagle", ["5,1,8,0,0,1.08239X$1,22.5"], [Q("1.6764")], ["regular"], [(1, 1)]),
        ("a product off that of a u's parts", ["5,1,8,0,0,1.08239X$1,22.5"], [Q("1.6764001")], ["convex"], None),
        ("an octagon of an odd size", ["5,1,8,0,0,$1,0"], [Q("1.0000001")], ["regular"], [(1, 1)]),
        ("a polygon of seven corners", ["5,1,7,0,0,1,30"], [], ["regular"], [(1, 1)]),
        ("a polygon off the origin", ["5,1,8,1,0,1,30"], [], ["regular"], [(1, 1)]),
        ("by odd tenths of a nanometre", ["5,1,8,1.0000001,0.0000003,1,-400.5"], [], ["regular"], [(1, 1)]),
        ("off the grid", ["5,1,8,1.00000001,0,1,30"], [], ["convex"], None),
        ("a polygon off the origin, by quarter turns", ["5,1,3,1,0,1,-90"], [], ["regular"], [(1, 1)]),
    ]

    def test_rows(self):
        for name, body, parameters, kinds, told in self.ROWS:
            found = list(figures(body, [Q(v) for v in parameters], MM))
            with self.subTest(name):
                self.assertEqual(([it[0] for it in found], rows(found)), (kinds, told))

    def test_quarter_turns(self):
        """Parameters that make quarter turns leave the figure as it is, in the order of its corners, on both sides."""
        corners = [(-MM, -MM // 2), (MM, -MM // 2), (MM, MM // 2), (-MM, MM // 2)]
        for quarters in range(-4, 9):
            low, high, lost = macro_bounds(ROT_RECT, [Q(2), Q(1), Q(90 * quarters)], MM)
            self.assertEqual((low, high, lost), ([Area(corners)],) * 2 + (0,))
            corners = [(-y, x) for x, y in corners]

    def test_whole_turns_are_made_first(self):
        """What is left of an angle is under a right angle."""
        told = [next(figures(ROT_RECT, [Q(2), Q(1), Q(30 + 90 * k)], MM)) for k in range(-4, 5)]
        self.assertEqual({angle for _, _, angle in told}, {30 * 10**7})
        self.assertEqual(
            [corners[0] for _, corners, _ in told[3:7]],
            [(-MM // 2, MM), (-MM, -MM // 2), (MM // 2, -MM), (MM, MM // 2)],
        )
        self.assertEqual(bounds_of(told[0]), bounds_of(told[4]))


if __name__ == "__main__":
    unittest.main()
