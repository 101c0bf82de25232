"""Random places near the borders of real shapes, by exact formulas, against both bounds. TESTS=n tries n times as many."""
import math
import os
import random
import unittest
from fractions import Fraction as Q

from tests.fixtures.real_shapes import (
    FINE,
    NEAR,
    Real,
    circle_ends,
    contour_of,
    encloses,
    every,
    fine,
    gerber_of,
    has,
    in_sector,
    macro_bounds,
    on_circle,
    pieces_of,
    through,
)
from boardnet_show.bounds.apertures.macros import bounds_of
from boardnet_show.bounds.files.bounded_file import Copper
from boardnet_show.bounds.primitives.arc_contours import contour_bound
from boardnet_show.formats.macro_expressions import Expression
from boardnet_show.geometry.arcs import Arc, arc_chain, chain_bounds, goes_once, is_meant
from boardnet_show.geometry.exact import Refused, cos_sin, minus, plus, root, times
from boardnet_show.geometry.pieces import Area, Capsule
from boardnet_show.geometry.segments import cross, dot, point_within

MANY = int(os.environ.get("TESTS", "1"))
MICROMETRE = 10_000


class Numbers(unittest.TestCase):
    def test_turns(self):
        rng = random.Random(3)
        for _ in range(300):
            d = Q(rng.randrange(-(10**9), 10**9), 10 ** rng.randrange(8))
            (c, s), (c2, _) = cos_sin(d), cos_sin(2 * d)
            one, double = plus(times(c, c), times(s, s)), plus(times(c, c), minus(times(s, s)))
            self.assertTrue(one[0] <= 1 <= one[1] and one[1] - one[0] < Q(1, 10**30))
            self.assertTrue(double[0] <= c2[1] and c2[0] <= double[1])
            self.assertLess(abs(float(s[0]) - math.sin(math.radians(float(d % 360)))), 1e-12)

    def test_roots(self):
        for n in (Q(2), Q(9, 4), Q(10**12 + 1), Q(1, 3), Q(0)):
            low, high = root(n)
            self.assertTrue(low * low <= n <= high * high)
        self.assertEqual(root(Q(9, 4)), (Q(3, 2), Q(3, 2)))

    def test_expressions(self):
        for text, value in (
            ("1+2x3", 7),
            ("(1+2)X3", 9),
            ("-$1/4", Q(-5, 4)),
            ("2--1", 3),
            ("1-2-3", -4),
            ("8/4/2", 1),
            ("$9", 0),
            (".5+1.", Q(3, 2)),
        ):
            self.assertEqual(Expression(text, {1: Q(5)}).value(), value)
        for text in ("", "1+", "1/0", "(1", "a", "1 2)"):
            self.assertRaises(Refused, lambda: Expression(text, {}).value())
        self.assertEqual(
            macro_bounds(["$3=$1x2", "$4=$3/2", "1,1,$4,0,0"], [Q(2)], 10)[0], [Capsule((0, 0), (0, 0), 10)]
        )


class Primitives(unittest.TestCase):
    """Discs, lines, rectangles, outlines and polygons of macros, at any angle, with sizes of thirds of a u."""

    def test_places(self):
        rng, seen, untold, lost = random.Random(1), 0, 0, 0
        for _ in range(40 * MANY):
            real = Real(rng)
            (shape,) = real.figure()
            low, high = bounds_of(shape)
            lost += not low
            for _ in range(60):
                p = real.near_border()
                truth, inside, outside = real.has(p), has(low, p), has(high, p)
                seen, untold = seen + 1, untold + (truth is None)
                self.assertFalse(inside and truth is False, (real.word(), p))
                self.assertFalse(truth is True and not outside, (real.word(), p))
        self.assertLess(untold * 100, seen)
        self.assertLess(lost * 20, 40 * MANY)

    def test_close(self):
        """What is 2 nm or more inside lies in LOWER, what is as far outside does not lie in UPPER, but at sharp corners."""
        rng, kept, asked = random.Random(2), 0, 0
        for _ in range(30 * MANY):
            real = Real(rng)
            low, high = bounds_of(real.figure()[0])
            for _ in range(20):
                p = real.near_border()
                around = [real.has((p[0] + dx, p[1] + dy)) for dx in (-80, 0, 80) for dy in (-80, 0, 80)]
                if every(around):
                    asked, kept = asked + 1, kept + has(low, p)
                if all(a is False for a in around):
                    asked, kept = asked + 1, kept + (not has(high, p))
        self.assertGreater(kept, asked * 95 // 100)

    def test_whole_stays_exact(self):
        body = [
            "1,1,$1,0,0",
            "21,1,$1+$1,$1,0,1.0,90",
            "4,1,3,0,0,1,0,1,1,0,0,180",
            "20,1,0.2,0,0,0.3,0.4,0",
            "22,1,1,1,0,0,270",
            "1,1,1,1,0,45x2",
        ]
        low, high, lost = macro_bounds(body, [Q(1)], 10**7)
        self.assertEqual((low, lost), (high, 0))


class Arcs(unittest.TestCase):
    def test_draws(self):
        """Draws along arcs: LOWER and UPPER lie right, and at most a micrometre apart."""
        rng = random.Random(4)
        for _ in range(20 * MANY):
            radius, a, b = circle_ends(rng, 400)
            pen = rng.randrange(1, 2 * 10**6)
            chain, most = arc_chain((0, 0), a, b)
            self.assertLessEqual(2 * most, MICROMETRE)
            low, high = chain_bounds(chain, most, Q(pen))
            for _ in range(40):
                p = self.place(rng, radius, a, b, pen)
                truth = self.truth(p, radius, a, b, pen)
                self.assertFalse(has(low, p) and not truth, (radius, a, b, pen, p))
                self.assertFalse(truth and not has(high, p), (radius, a, b, pen, p))

    def place(self, rng, radius, a, b, pen):
        t, side = rng.random() * 7, rng.choice((-1, 1))
        end, off = rng.choice((None, None, a, b)), rng.choice((2, NEAR, 5000, 20000))
        x, y = (radius + side * pen) * math.cos(t), (radius + side * pen) * math.sin(t)
        if end:
            x, y = end[0] + pen * math.cos(t), end[1] + pen * math.sin(t)
        return tuple(round(v * FINE) + rng.randint(-off, off) for v in (x, y))

    def truth(self, p, radius, a, b, pen):
        radius, pen, a, b = radius * FINE, pen * FINE, fine(a), fine(b)
        if any((p[0] - e[0]) ** 2 + (p[1] - e[1]) ** 2 <= pen**2 for e in (a, b)):
            return True
        square = p[0] ** 2 + p[1] ** 2
        return in_sector(a, b, p) and square <= (radius + pen) ** 2 and (pen >= radius or square >= (radius - pen) ** 2)

    def test_two_radii(self):
        """Ends at two distances: at angles of the sweep the chain keeps to `most` of both circles."""
        rng = random.Random(5)
        for _ in range(40 * MANY):
            _, a, b = circle_ends(rng, 200)
            a, b = [tuple(v + rng.randint(-40, 40) for v in p) for p in (a, b)]
            if cross((0, 0), a, b) == 0:
                continue
            chain, most = arc_chain((0, 0), a, b)
            near, far = sorted((dot((0, 0), a, a), dot((0, 0), b, b)))
            for p, q in zip(chain, chain[1:]):
                for t in range(9):
                    square = sum(((8 - t) * u + t * v) ** 2 for u, v in zip(p, q))
                    low, high = max(0, math.isqrt(far) - most) * 8, (math.isqrt(near) + 1 + most) * 8
                    self.assertTrue(low * low <= square <= high * high)

    def test_once_round(self):
        """A chain that goes round twice is none."""
        quarter = [(9, 0), (0, 9), (-9, 0), (0, -9), (9, 0)]
        rows = [
            (quarter, True),
            (quarter[:3], True),
            (quarter + quarter[1:], False),
            (quarter + quarter[1:2], False),
            (quarter[::-1], False),
            (quarter[:2] + quarter[3:], False),
        ]
        for chain, answer in rows:
            self.assertEqual(goes_once(lambda p, q: cross((0, 0), p, q), chain), answer, chain)


def parts_of(contour):
    """A contour's spots and Arcs, closed, without edges of no length."""
    parts, last = [contour[0]], contour[0]
    for part in contour[1:]:
        if len(part) == 3:
            parts.append(Arc(part[0], last, part[1], part[2]))
            last = part[1]
        elif part != last:
            parts.append(part)
            last = part
    return parts + [contour[0]] if last != contour[0] else parts


def corner(part):
    return part[1] if len(part) == 3 else part


def words_for(contour, *more):
    """A copper file with a region, in tenths of a nanometre."""
    return gerber_of(contour).replace("%MOMM*%", "\n".join(("%MOMM*%", *more)))


class SmallCircles(unittest.TestCase):
    """Circles of about a tenth of a micrometre, from below the least radius of chains on: UPPER has all of them."""

    def test_places(self):
        rng = random.Random(13)
        for radius in range(980, 1200, 14):
            (x, y, r), pen = on_circle(rng, radius), rng.choice((2, 900, 1100, 5000, 10**6))
            start = rng.choice(((r, 0), (x, y)))
            text = gerber_of([start, ((0, 0), start, rng.random() < 0.5)])
            drawn = (
                text.replace("%MOMM*%", f"%MOMM*%\n%ADD10C,{pen * 2 / 10 ** 7:.7f}*%\nD10*")
                .replace("G36*", "")
                .replace("G37*", "")
            )
            filled, outline = ([pieces_of(side) for side in Copper(it).sides] for it in (text, drawn))
            for _ in range(40):
                t, off = rng.random() * 7, rng.choice((0, 3, 100))
                p = tuple(round((r + rng.choice((-pen, pen, 0)) + off) * f(t) * FINE) for f in (math.cos, math.sin))
                square, reach = dot((0, 0), p, p), (r * FINE, pen * FINE)
                self.assertTrue(square > reach[0] ** 2 or has(filled[1], p), (r, p))
                self.assertTrue(square <= reach[0] ** 2 or not has(filled[0], p), (r, p))
                inside = square <= sum(reach) ** 2 and (pen >= r or square >= (r * FINE - reach[1]) ** 2)
                self.assertTrue(not inside or has(outline[1], p), (r, pen, p))
                self.assertTrue(inside or not has(outline[0], p), (r, pen, p))


class TwoRadii(unittest.TestCase):
    """Contours with an arc whose ends are not equally far from its centre: LOWER lies within every curve between both distances, and
    UPPER round it. A pie has its copper on the side of the centre, a fan beyond."""

    def contour(self, rng, is_pie):
        turn, wide = rng.random() * 6.28, math.radians(
            rng.choice((2, 20, 80, 91, 130, 178, 200, 250, 275, 300, 340, 358))
        )
        r, more = rng.choice((2000, 30000, 10**6, 10**7)) * rng.randint(1, 9), rng.choice(
            (1, 2, 10, 254, 2540, 15000, 25400)
        )
        at = lambda far, angle: (round(far * math.cos(angle)), round(far * math.sin(angle)))
        start, end = at(r, turn), at(r + rng.choice((-1, 1)) * min(more, r // 3), turn + wide)
        fan = [] if is_pie else [at(3 * r, turn + wide * k / 24) for k in range(24, -1, -1)]
        contour = [start, ((0, 0), end, True), *(fan or [(0, 0)])]
        if rng.random() < 0.5:
            contour = [start, *reversed(contour[2:]), end, ((0, 0), start, False)]
        return start, end, contour

    def test_places(self):
        rng, given, cases = random.Random(14), 0, 0
        for n in range(40 * MANY):
            start, end, contour = self.contour(rng, n % 2)
            if not is_meant((0, 0), start, end):
                self.assertRaisesRegex(Refused, "too unlike", Copper, words_for(contour))
                continue
            near, far = sorted((dot((0, 0), start, start), dot((0, 0), end, end)))
            low, high = (
                pieces_of(side) for side in Copper(words_for(contour, *["%LPC*%", "%LPD*%"] * rng.randint(0, 1))).sides
            )
            given, cases = given + bool(low), cases + 1
            for _ in range(60):
                a, t, off = rng.choice((start, end)), rng.random(), rng.choice((2, 300, 8000, 40000))
                a = (
                    a
                    if t < 0.3
                    else tuple(u * (1 - t) + v * t for u, v in zip(start, end))
                    if t < 0.5
                    else (math.cos(9 * t) * math.hypot(*start), math.sin(9 * t) * math.hypot(*start))
                )
                p = tuple(round(v * FINE) + rng.randint(-off, off) for v in a)
                square = dot((0, 0), p, p)
                if not in_sector(fine(start), fine(end), p) or not 0 < square < 2 * FINE**2 * near:
                    continue
                sure, never = (
                    (square < near * FINE**2, square > far * FINE**2)
                    if n % 2
                    else (square > far * FINE**2, square < near * FINE**2)
                )
                self.assertTrue(sure or not has(low, p), (contour, p))
                self.assertTrue(never or has(high, p), (contour, p))
        self.assertGreater(given, cases * 8 // 10)


class Concave(unittest.TestCase):
    def test_apart(self):
        """Across a round clearance the bounds are at most a micrometre apart."""
        rng = random.Random(15)
        for _ in range(4 * MANY):
            r = rng.choice((10**5, 10**6, 10**7)) * rng.randint(1, 9)
            w = 2 * r
            contour = [(-w, -w), (w, -w), (w, 0), (r, 0), ((0, 0), (r, 0), False), (w, 0), (w, w), (-w, w), (-w, -w)]
            low, high = (pieces_of(side) for side in Copper(gerber_of(contour)).sides)
            for _ in range(12):
                t = rng.random() * 7
                p = lambda d: tuple(round((r + d) * FINE * f(t)) for f in (math.cos, math.sin))
                least = next(d for d in range(-MICROMETRE, MICROMETRE, 100) if has(high, p(d)))
                most = next(d for d in range(least, MICROMETRE, 100) if has(low, p(d)))
                self.assertLess(most - least, MICROMETRE, (r, t))


class Regions(unittest.TestCase):
    """Contours with arcs: the truth is even-odd of the chords' polygon, changed by each circular segment that has the place."""

    def place(self, rng, arcs):
        arc, t, off = rng.choice(arcs), rng.random() * 7, rng.choice((2, NEAR, 300, 20000, 100000))
        c = (arc.c[0] / arc.n, arc.c[1] / arc.n)
        r = math.sqrt(arc.square) / arc.n
        x, y = rng.choice(((c[0] + r * math.cos(t), c[1] + r * math.sin(t)), arc.a, arc.b))
        return round(x * FINE) + rng.randint(-off, off), round(y * FINE) + rng.randint(-off, off)

    def truth(self, p, contour):
        """None on a border."""
        straight = [corner(part) for part in contour]
        odd, last = encloses(straight, p), contour[0]
        if any(point_within(p, fine(a), fine(b), 0) for a, b in zip(straight, straight[1:] + straight[:1])):
            return None
        for part in contour[1:]:
            if len(part) == 3:
                c, end, anticlockwise = fine(part[0]), fine(part[1]), part[2]
                a, b = (fine(last), end) if anticlockwise else (end, fine(last))
                c = through(a, b, c)
                square = (p[0] - c[0]) ** 2 + (p[1] - c[1]) ** 2 - ((a[0] - c[0]) ** 2 + (a[1] - c[1]) ** 2)
                if square == 0:
                    return None
                odd ^= square < 0 and (a == b or cross(a, b, p) < 0)
            last = corner(part)
        return odd

    def test_places(self):
        rng, lost, cases, kept = random.Random(6), 0, 0, 0
        for _ in range(25 * MANY):
            contour = contour_of(rng)
            if rng.random() < 0.4:
                contour = [(tuple(v + rng.randint(-7, 7) for v in p[0]), *p[1:]) if len(p) == 3 else p for p in contour]
            parts = parts_of(contour)
            arcs = [p for p in parts if isinstance(p, Arc)]
            if not arcs:
                continue
            corners = contour_bound(parts, False)
            cases, lost = cases + 1, lost + (corners is None)
            low, high = [Area(corners)] if corners else [], pieces_of(Copper(gerber_of(contour)).sides[1])
            round_it = contour_bound(parts, True)
            kept += round_it is not None
            for _ in range(80):
                p = self.place(rng, arcs)
                truth = self.truth(p, contour)
                self.assertFalse(truth is False and has(low, p), (contour, p))
                self.assertFalse(truth is True and not has(high, p), (contour, p))
                self.assertFalse(truth is True and round_it and not has([Area(round_it)], p), (contour, p))
        self.assertLess(lost, cases // 10)
        self.assertGreater(kept, cases * 9 // 10)

    def test_close(self):
        """Away from corners: what is a micrometre inside lies in LOWER, what is a micrometre outside does not lie in UPPER."""
        rng, asked, far = random.Random(12), 0, MICROMETRE * FINE
        for _ in range(12 * MANY):
            contour = contour_of(rng)
            parts = parts_of(contour)
            arcs = [p for p in parts if isinstance(p, Arc)]
            corners = contour_bound(parts, False) if arcs else None
            if not corners:
                continue
            high = pieces_of(Copper(gerber_of(contour)).sides[1])
            for _ in range(60):
                p = self.place(rng, arcs)
                if any(dot(p, fine(corner(part)), fine(corner(part))) < 4 * far * far for part in contour):
                    continue
                around = [self.truth((p[0] + dx, p[1] + dy), contour) for dx in (-far, 0, far) for dy in (-far, 0, far)]
                asked += all(around) or not any(around)
                self.assertFalse(all(around) and not has([Area(corners)], p), (contour, p))
                self.assertFalse(not any(around) and has(high, p), (contour, p))
        self.assertGreater(asked, 20 * MANY)

    def test_wild(self):
        """Contours that cross themselves, with half circles: LOWER mostly is not given, and where it is, it lies in the area."""
        rng, given = random.Random(8), 0
        for _ in range(150 * MANY):
            size = rng.choice((3000, 30000, 3000000))
            spots = [tuple(2 * rng.randint(-size, size) for _ in "xy") for _ in range(rng.randrange(2, 5))]
            contour = spots[:1]
            for a, b in zip(spots, spots[1:] + spots[:1]):
                half = ((a[0] + b[0]) // 2, (a[1] + b[1]) // 2), b, rng.random() < 0.5
                contour += [] if a == b else [half] if rng.random() < 0.5 else [b]
            parts = parts_of(contour)
            arcs = [p for p in parts if isinstance(p, Arc)]
            corners = contour_bound(parts, False) if arcs else None
            given += bool(corners)
            outer = contour_bound(parts, True) if arcs else None
            for _ in range(60 if corners or outer else 0):
                p = (
                    self.place(rng, arcs)
                    if rng.random() < 0.7
                    else tuple(rng.randint(-8 * size, 8 * size) for _ in "xy")
                )
                self.assertFalse(corners and self.truth(p, contour) is False and has([Area(corners)], p), (contour, p))
                self.assertFalse(outer and self.truth(p, contour) and not has([Area(outer)], p), (contour, p))
        self.assertGreater(given, 12 * MANY)

    def test_cusps(self):
        """An edge that comes to the arc's end at a few degrees from its tangent, from either side and either way round."""
        rng, given = random.Random(9), 0
        for _ in range(45 * MANY):
            r, v = rng.randrange(10**5, 10**7), rng.randrange(10**4, 10**6)
            a = (r + rng.randint(-v, v) // rng.choice((3, 10, 20, 40)), v * rng.choice((-1, 1, 1)))
            start, end = (r, 0), rng.choice(((0, r), (0, -r), (-r, 0)))
            contour = [a, start, ((0, 0), end, True), a] if rng.random() < 0.5 else [a, end, ((0, 0), start, False), a]
            corners = contour_bound(parts_of(contour), False)
            given += bool(corners)
            outer = contour_bound(parts_of(contour), True)
            for _ in range(60 if corners or outer else 0):
                t, off = rng.random() ** 3 / 2, rng.choice((2, 300, 5000))
                p = tuple(round(x * FINE) + rng.randint(-off, off) for x in (r * math.cos(t), r * math.sin(t)))
                self.assertFalse(corners and self.truth(p, contour) is False and has([Area(corners)], p), (contour, p))
                self.assertFalse(outer and self.truth(p, contour) and not has([Area(outer)], p), (contour, p))
        self.assertGreater(given, 12 * MANY)


if __name__ == "__main__":
    unittest.main()
