"""Clear polarity: areas and objects in their order, by exact places, against both bounds. TESTS=n tries n times as many."""
import math
import os
import random
import re
import time
import unittest
import zipfile
from fractions import Fraction as Q

from boardnet_show.bounds.files.bounded_file import of_text
from boardnet_show.bounds.polarity.dark_and_clear import Object, cut
from boardnet_show.bounds.polarity.sweep import Sweep
from boardnet_show.geometry.arcs import arc_chain
from boardnet_show.geometry.capsule_polygons import in_it, ring, round_it
from boardnet_show.geometry.pieces import Area
from boardnet_show.geometry.segments import odd_inside, point_within
from tests.fixtures import made
from tests.fixtures.common import SURE
from tests.fixtures.made import built, manifest, netlist, record
from tests.fixtures.real_shapes import FINE, circle_ends, encloses, every, fine, has, in_sector, pieces_of

MANY = int(os.environ.get("TESTS", "1"))
MICROMETRE = 10_000
PARTS = 12  # places of sweeps are twelfths of a u


def on_border(corners, p, scale):
    return any(
        point_within(p, (a[0] * scale, a[1] * scale), (b[0] * scale, b[1] * scale), 0)
        for a, b in zip(corners, corners[1:] + corners[:1])
    )


def holds(contours, p, scale):
    return any(encloses(c, p, scale) or on_border(c, p, scale) for c in contours)


class Areas(unittest.TestCase):
    """Polygons of every kind: crossing themselves, with cut-ins and spikes, equal ones, moved by a u, with edges in common."""

    def contour(self, rng, size):
        spot = lambda: (rng.randint(0, size), rng.randint(0, size))
        a, b, kind = spot(), spot(), rng.choice("rtpsz")
        if kind == "r":
            return [a, (b[0], a[1]), b, (a[0], b[1])]
        if kind == "z":
            return [
                a,
                (b[0], a[1]),
                b,
                (a[0], b[1]),
                a,
                ((a[0] + b[0]) // 2, a[1]),
                ((a[0] + b[0]) // 2, (a[1] + b[1]) // 2),
            ]
        found = [spot() for _ in range(3 if kind == "t" else rng.randint(3, 7))]
        return found + [found[0], a, found[0]] if kind == "s" else found

    def items(self, rng, size):
        items = [(rng.random() < 0.6, self.contour(rng, size)) for _ in range(rng.randint(1, 8))]
        for moved in (0, rng.randint(0, 2)):
            if rng.random() < 0.3:
                items.append((rng.random() < 0.5, [(x, y + moved) for x, y in rng.choice(items)[1]]))
        return items

    def place(self, rng, items, size):
        if rng.random() < 0.5:
            return tuple(rng.randint(-PARTS, size * PARTS + PARTS) for _ in "xy")
        corners, t = rng.choice(items)[1], rng.randint(0, PARTS)
        k = rng.randrange(len(corners))
        return tuple(u * (PARTS - t) + v * t + rng.randint(-PARTS, PARTS) for u, v in zip(corners[k - 1], corners[k]))

    def truth(self, items, p):
        """None on a border."""
        state = False
        for dark, corners in items:
            if on_border(corners, p, PARTS):
                return None
            if encloses(corners, p, PARTS):
                state = dark
        return state

    def test_places(self):
        rng, asked = random.Random(21), 0
        for _ in range(50 * MANY):
            size = rng.choice((6, 12, 12, 20, 40, 300, 10**7))
            items = self.items(rng, size)
            low, high = ([c for c, _ in Sweep(items, upper).out] for upper in (False, True))
            self.assertTrue(all(len(c) >= 3 for c in low + high))
            for _ in range(40):
                p = self.place(rng, items, size)
                truth = self.truth(items, p)
                asked += truth is not None
                self.assertFalse(truth is False and holds(low, p, PARTS), (items, p))
                self.assertFalse(truth is True and not holds(high, p, PARTS), (items, p))
        self.assertGreater(asked, 120 * MANY)

    def test_close(self):
        """What is 3 u inside lies in LOWER, what is 3 u outside does not lie in UPPER."""
        rng, asked = random.Random(22), 0
        for _ in range(25 * MANY):
            size = rng.choice((60, 300, 10**7))
            items = self.items(rng, size)
            low, high = ([c for c, _ in Sweep(items, upper).out] for upper in (False, True))
            for _ in range(40):
                p = self.place(rng, items, size)
                if any(
                    point_within(p, (a[0] * PARTS, a[1] * PARTS), (b[0] * PARTS, b[1] * PARTS), 3 * PARTS)
                    for _, c in items
                    for a, b in zip(c, c[1:] + c[:1])
                ):
                    continue
                truth, asked = self.truth(items, p), asked + 1
                self.assertEqual((holds(low, p, PARTS), holds(high, p, PARTS)), (truth, truth), (items, p))
        self.assertGreater(asked, 120 * MANY)

    def test_covered(self):
        """Nothing is left of what a later clear area covers."""
        rng = random.Random(29)
        for _ in range(25 * MANY):
            size = rng.choice((6, 12, 20, 60, 400))
            items = [*self.items(rng, size), (False, block_of(-1, -1, size + 3, size + 3))]
            self.assertEqual([Sweep(items, upper).out for upper in (False, True)], [[], []], items)

    def test_nearly_level(self):
        """Edges that rise by a few u over a millimetre, and places far off them within the same u of height."""
        size, tilts = 10**7, (-7, -3, -1, 0, 1, 3, 7)
        for a, b in ((a, b) for a in tilts for b in tilts):
            plane = [(0, 0), (size, a), (size - a, size + a), (-a, size)]
            band = [
                (3 * size // 10, -size),
                (4 * size // 10, -size),
                (4 * size // 10 - b, 2 * size),
                (3 * size // 10 - b, 2 * size),
            ]
            for dark, items in (
                (True, [(True, plane), (False, band)]),
                (False, [(True, block_of(-size, -size, 2 * size, 2 * size)), (False, plane), (True, band)]),
            ):
                low, high = ([c for c, _ in Sweep(items, upper).out] for upper in (False, True))
                for y in range(min(0, a) - 2, max(0, a) + 3):
                    for x, inside in ((size // 5, False), (35 * size // 100, True), (size // 2, False)):
                        for p in ((x * PARTS, y * PARTS + k) for k in (1, 6, 11)):
                            above = p[1] * size > a * p[0]
                            if abs(p[1] * size - a * p[0]) > 3 * PARTS * size or inside:
                                truth = (above and not inside) == dark
                                self.assertEqual(
                                    (holds(low, p, PARTS), holds(high, p, PARTS)), (truth, truth), (a, b, dark, p)
                                )

    def leveled(self, rng):
        """Areas whose nearly level edges cross each other and steep ones within a u or two of height, round one place."""
        size, middle = 10 ** rng.choice((5, 6, 7)), rng.randint(0, 10**5)
        x, y = (lambda: rng.randint(0, size)), (lambda: rng.randint(0, 1))
        items = [(True, block_of(-size, -20, 2 * size, 20))] if rng.random() < 0.5 else []
        for _ in range(rng.randint(2, 8)):
            (a, b), s, w = sorted((x(), x())), rng.randint(-20, 20), rng.choice((-size // 3, size // 3, 1000, 7))
            forms = (
                [(a, y()), (b, y()), (b + rng.choice((0, 5)), w), (a, w)],
                [(a, y()), (b, y()), (b, y()), (a, y())],
                [(x(), y()) for _ in range(rng.randint(3, 7))],
                [(middle + s, -14), (middle + s + w, -14), (middle + s + w, 15), (middle - s + rng.randint(-1, 1), 15)],
            )
            items.append((rng.random() < 0.5, rng.choice(forms)))
            if rng.random() < 0.25:
                items.append((rng.random() < 0.5, [(p, q + rng.randint(0, 1)) for p, q in rng.choice(items)[1]]))
        return items

    def most(self, items, p):
        """Whether a place is dark where borders of clear areas are."""
        state = False
        for dark, corners in items:
            is_border = on_border(corners, p, 1)
            inside = odd_inside(corners, p) and not (is_border and not dark) or is_border and dark
            state = dark if inside else state
        return state

    def least(self, items, p):
        """Whether it is where they are not."""
        state = False
        for dark, corners in items:
            state = dark if odd_inside(corners, p) or on_border(corners, p, 1) else state
        return state

    def upwards(self, items, x, y):
        """All kinds of places at most 3 u above and below one."""
        ends = {y - 3, y + 3}
        for a, b in ((a, b) for _, corners in items for a, b in zip(corners, corners[1:] + corners[:1])):
            if min(a[0], b[0]) <= x <= max(a[0], b[0]):
                ends.update([a[1], b[1]] if a[0] == b[0] else [a[1] + Q(b[1] - a[1]) * (x - a[0]) / (b[0] - a[0])])
        ends = sorted(end for end in ends if abs(end - y) <= 3)
        return [(x, end) for end in ends] + [(x, (a + b) / 2) for a, b in zip(ends, ends[1:])]

    def test_slivers(self):
        """Where borders cross nearly level, what a bound has is so within half a micrometre sideways and 3 u upwards, and holds."""
        rng, asked = random.Random(30), 0
        for _ in range(12 * MANY):
            items = self.leveled(rng)
            low, high = ([c for c, _ in Sweep(items, upper).out] for upper in (False, True))
            for _ in range(15):
                x, y = rng.choice(rng.choice(items)[1])[0] + Q(
                    rng.choice((0, rng.randint(-60, 60), rng.randint(-(10**6), 10**6))), PARTS
                ), Q(rng.randint(-18, 36), PARTS)
                is_low, is_high = holds(low, (x, y), 1), holds(high, (x, y), 1)
                self.assertTrue(
                    (not is_low or self.most(items, (x, y))) and (is_high or not self.least(items, (x, y))),
                    (items, x, y),
                )
                beside = sorted(
                    {
                        x,
                        x - 3,
                        x + 3,
                        x - 5010,
                        x + 5010,
                        *(v for _, corners in items for v, _ in corners if abs(v - x) <= 3),
                    }
                )
                places = [place for at in beside for place in self.upwards(items, at, y)]
                asked += 1
                self.assertTrue(not is_high or any(self.most(items, p) for p in places), ("upper", items, x, y))
                self.assertTrue(is_low or not all(self.least(items, p) for p in places), ("lower", items, x, y))
        self.assertEqual(asked, 180 * MANY)

    def test_sliver_between_steep_borders(self):
        """Two steep borders and a level one that says nothing there, all in a unit of height."""
        steep = [
            (True, [(-1000, -15), (-16, -15), (15, 15), (-1000, 15)]),
            (True, [(-1000, -15), (14, -15), (-16, 15), (-1000, 15)]),
        ]
        level = (False, [(-(10**6), -1), (10**6, 0), (10**6, -10), (-(10**6), -10)])
        for items in ([level, *steep], [*steep, level]):
            for upper in (False, True):
                self.assertLess(max(x for corners, _ in Sweep(items, upper).out for x, _ in corners), 20)

    def test_sides_do_not_cross(self):
        """Each contour has its corners up one side and down the other, and at each of its heights the sides in order."""
        rng = random.Random(23)
        for _ in range(30 * MANY):
            items = self.items(rng, rng.choice((12, 40, 300)))
            for upper in (False, True):
                for corners, _ in Sweep(items, upper).out:
                    heights = sorted({y for _, y in corners})
                    for a, b in zip(heights, heights[1:]):
                        xs = sorted(
                            (Q(p[0]) + Q((q[0] - p[0]) * (2 * y - 2 * p[1]), 2 * (q[1] - p[1])), k)
                            for y in (Q(a + b, 2),)
                            for k, (p, q) in enumerate(zip(corners, corners[1:] + corners[:1]))
                            if min(p[1], q[1]) < y < max(p[1], q[1])
                        )
                        self.assertEqual(len(xs), 2, (items, corners))


SQUARE = [(0, 0), (40, 0), (40, 40), (0, 40)]


def block_of(left, low, right, high):
    return [(left, low), (right, low), (right, high), (left, high)]


class Borders(unittest.TestCase):
    """What lies on the border of a clear area is not in LOWER and in UPPER, but where a later dark area has it."""

    def bounds(self, *items):
        objects = [Object(dark, ([Area(corners)],) * 2, k) for k, (dark, corners) in enumerate(items)]
        return [[corners for (corners,), _ in pieces] for pieces in cut(objects, range(len(items)))[1:]]

    def test_places(self):
        ring = block_of(10, 10, 30, 30) + [(10, 10), (14, 14), (14, 26), (26, 26), (26, 14), (14, 14)]
        cases = (
            (
                "two voids that touch at a corner",
                [(True, SQUARE), (False, block_of(0, 0, 20, 20)), (False, block_of(20, 20, 40, 40))],
                (20, 20),
                (False, True),
            ),
            (
                "two voids beside each other",
                [(True, SQUARE), (False, block_of(10, 0, 20, 40)), (False, block_of(20, 0, 30, 40))],
                (20, 7),
                (False, True),
            ),
            (
                "two voids over each other",
                [(True, SQUARE), (False, block_of(0, 10, 40, 20)), (False, block_of(0, 20, 40, 30))],
                (7, 20),
                (False, True),
            ),
            (
                "two voids that overlap",
                [(True, SQUARE), (False, block_of(10, 0, 21, 40)), (False, block_of(20, 0, 30, 40))],
                (20, 7),
                (False, False),
            ),
            ("an area and its equal", [(True, SQUARE), (False, SQUARE)], (0, 5), (False, True)),
            ("within both", [(True, SQUARE), (False, SQUARE)], (5, 5), (False, False)),
            ("a tip on a side", [(True, SQUARE), (False, [(40, 20), (60, 10), (60, 30)])], (40, 20), (False, True)),
            ("a level side", [(True, SQUARE), (False, block_of(10, 10, 30, 30))], (20, 10), (False, True)),
            (
                "a corner of a void",
                [(True, SQUARE), (False, [(20, 10), (30, 20), (20, 30), (10, 20)])],
                (20, 10),
                (False, True),
            ),
            (
                "a void that is filled again",
                [(True, SQUARE), (False, block_of(10, 10, 30, 30)), (True, block_of(10, 10, 30, 30))],
                (10, 20),
                (True, True),
            ),
            (
                "an island with the void's corner",
                [(True, SQUARE), (False, block_of(10, 10, 30, 30)), (True, block_of(10, 10, 20, 20))],
                (10, 10),
                (True, True),
            ),
            ("a void round an island, in its cut", [(True, SQUARE), (False, ring)], (12, 12), (False, False)),
            (
                "a covered level side beside another one",
                [
                    (True, block_of(0, 0, 10, 10)),
                    (False, block_of(-5, -5, 20, 20)),
                    (True, block_of(60, 0, 70, 10)),
                    (False, block_of(60, 0, 70, 10)),
                ],
                (5, 10),
                (False, False),
            ),
            (
                "the other one",
                [
                    (True, block_of(0, 0, 10, 10)),
                    (False, block_of(-5, -5, 20, 20)),
                    (True, block_of(60, 0, 70, 10)),
                    (False, block_of(60, 0, 70, 10)),
                ],
                (65, 10),
                (False, True),
            ),
            ("the island", [(True, SQUARE), (False, ring)], (20, 20), (True, True)),
            ("the island's side", [(True, SQUARE), (False, ring)], (14, 20), (False, True)),
            (
                "a tip a unit off the side",
                [(True, block_of(0, 0, 20, 20)), (False, [(0, 14), (12, 19), (1, 11), (8, 0), (12, 19), (0, 14)])],
                (1, 11),
                (False, True),
            ),
            (
                "a void that runs along itself to its tip",
                [(True, [(0, 0), (12, 12), (0, 12)]), (False, [(2, 1), (2, 5), (0, 7), (2, 10)])],
                (2, 5),
                (False, True),
            ),
            (
                "a tip on a corner, level with a notch",
                [(True, [(6, 3), (7, 4), (7, 5), (6, 4), (5, 5)]), (False, [(7, 4), (8, 3), (8, 5)])],
                (7, 4),
                (False, True),
            ),
            (
                "a tip on a corner, level with the end of a slot",
                [(True, [(6, 5), (7, 4), (7, 3), (6, 4), (5, 3)]), (False, [(7, 4), (8, 3), (8, 5)])],
                (7, 4),
                (False, True),
            ),
            (
                "the end of a thin area on a level side",
                [(True, [(8, 11), (8, 7), (8, 10)]), (False, [(9, 11), (10, 0), (6, 11)])],
                (8, 11),
                (False, True),
            ),
            (
                "a thin area on an upright side",
                [(True, [(1, 2), (2, 2), (2, 2), (1, 2)]), (False, [(1, 0), (1, 5), (3, 0), (3, 3)])],
                (1, 2),
                (False, True),
            ),
        )
        for name, items, place, want in cases:
            low, high = self.bounds(*items)
            self.assertEqual((holds(low, place, 1), holds(high, place, 1)), want, name)

    def test_parts(self):
        """Where areas of one clear object abut is no border of it, however they lie; what has not all of a place's sides has its border there."""
        plane, left, right = (True, [SQUARE]), block_of(10, 5, 20, 35), block_of(20, 5, 30, 35)
        low, high, quarters = (
            block_of(5, 10, 35, 20),
            block_of(5, 20, 35, 30),
            [block_of(x, y, x + 10, y + 10) for x in (10, 20) for y in (10, 20)],
        )
        triangles = [(10, 10), (30, 10), (30, 30)], [(10, 10), (30, 30), (10, 30)]
        steep = [(10, 5), (20, 5), (21, 35), (10, 35)], [(20, 5), (30, 5), (30, 35), (21, 35)]
        ring = [block_of(5, 5, 35, 15), block_of(5, 25, 35, 35), block_of(5, 15, 15, 25), block_of(25, 15, 35, 25)]
        cases = [
            ("upright", [plane, (False, [left, right])], (20, 7), False),
            ("of two objects", [plane, (False, [left]), (False, [right])], (20, 7), True),
            ("level", [plane, (False, [low, high])], (7, 20), False),
            ("level, of two objects", [plane, (False, [low]), (False, [high])], (7, 20), True),
            ("slanted", [plane, (False, triangles)], (20, 20), False),
            ("slanted, of two objects", [plane, *((False, [it]) for it in triangles)], (20, 20), True),
            ("nearly upright", [plane, (False, steep)], (20, 5), True),
            ("a place of four", [plane, (False, quarters)], (20, 20), False),
            *(
                (
                    f"a place of three of four, without {k}",
                    [plane, (False, quarters[:k] + quarters[k + 1 :])],
                    (20, 20),
                    True,
                )
                for k in range(4)
            ),
            ("its lower end", [plane, (False, [left, right])], (20, 5), True),
            ("its upper end", [plane, (False, [left, right])], (20, 35), True),
            ("a unit between", [plane, (False, [left, block_of(21, 5, 30, 35)])], (20, 7), True),
            ("a void over one side", [plane, (False, [left, right]), (False, [left])], (20, 7), False),
            ("under a void over one side", [plane, (False, [left]), (False, [left, right])], (20, 7), False),
            ("a later strip", [plane, (False, [left, right]), (True, [block_of(18, 0, 20, 40)])], (20, 7), True),
            ("an earlier strip", [(True, [block_of(18, 0, 20, 40)]), (False, [left, right])], (20, 7), False),
            (
                "dark again on one side",
                [plane, (False, [left, right]), (True, [right]), (False, [right])],
                (20, 7),
                True,
            ),
            *(
                (f"round an island, at {place}", [plane, (False, ring)], place, want)
                for place, want in (
                    ((10, 15), False),
                    ((10, 25), False),
                    ((15, 20), True),
                    ((15, 15), True),
                    ((20, 25), True),
                    ((20, 20), True),
                )
            ),
        ]
        for name, items, place, want in cases:
            for turn in (lambda x, y: (x, y), lambda x, y: (x, -y), lambda x, y: (y, x)):
                objects = [
                    Object(dark, ([Area([turn(*p) for p in corners]) for corners in areas],) * 2, k)
                    for k, (dark, areas) in enumerate(items)
                ]
                found = [corners for (corners,), _ in cut(objects, range(len(items)))[2]]
                self.assertEqual(holds(found, turn(*place), 1), want, name)

    def test_contours_of_a_region(self):
        """Each contour of a clear region is an object: where two abut is a border, in copies and changed blocks too; one with a cut-in has none there."""
        square = [
            "G36*",
            *(
                f"X{x}Y{y}D0{2 if k == 0 else 1}*"
                for k, (x, y) in enumerate(((0, 0), (40, 0), (40, 40), (0, 40), (0, 0)))
            ),
            "G37*",
        ]
        halves = [
            "G36*",
            *(
                line
                for left in (10, 20)
                for line in (
                    f"X{left}Y5D02*",
                    *(f"X{x}Y{y}D01*" for x, y in ((left + 10, 5), (left + 10, 35), (left, 35), (left, 5))),
                )
            ),
            "G37*",
        ]
        block = ["%ABD12*%", *halves, "%AB*%"]
        for lines in (
            ["%LPC*%", *halves],
            ["%LPC*%", "%SRX1Y1I0J0*%", *halves, "%SR*%"],
            [*block, "%LPC*%", "D12*", "X0Y0D03*"],
            [*block, "%LPC*%", "%LMX*%", "D12*", "X40Y0D03*"],
        ):
            low, high = (
                pieces_of(side)
                for side in of_text("\n".join(["%FSLAX47Y47*%", "%MOMM*%", *square, *lines, "M02*", ""])).sides
            )
            self.assertEqual(
                [has(high, fine(place)) for place in ((20, 17), (15, 17), (25, 17))], [True, False, False], lines
            )
            self.assertFalse(has(low, fine((20, 17))), lines)

    def test_two_crossings(self):
        """Both sides of a narrow area cross a clear border within a unit; a place on that border, times 16."""
        items = [
            (True, [(7, 2), (0, 0), (2, 7)]),
            (True, [(3, 3), (5, 1), (7, 3), (5, 5)]),
            (True, [(3, 6), (5, 4), (7, 6), (5, 8)]),
            (False, [(7, 6), (0, 4), (2, 11)]),
        ]
        low, high = self.bounds(*items)
        self.assertEqual((holds(low, (35, 74), 16), holds(high, (35, 74), 16)), (False, True))

    def around(self, corners, p):
        """Whether it is inside all round a place of a contour's line; None where it is inside and outside. Far finer places than
        edges come near each other are asked, between the ways of the edges there."""
        fine, found = 10**20, set()
        ways = [
            (c[0] - p[0], c[1] - p[1])
            for a, b in zip(corners, corners[1:] + corners[:1])
            if on_border([a, b], p, 1)
            for c in (a, b)
            if c != p
        ]
        for x, y in ways:
            for k in (-1, 1):
                found.add(
                    encloses(corners, (p[0] * fine + x * 10**6 - k * y, p[1] * fine + y * 10**6 + k * x), fine)
                )
        return found.pop() if len(found) == 1 else None

    def truth(self, items, p):
        """With the borders of clear areas taken away, and left."""
        low = high = False
        for dark, corners in items:
            inside = odd_inside(corners, p) or on_border(corners, p, 1)
            if dark:
                low, high = low or inside, high or inside
            elif inside:
                low = low and on_border(corners, p, 1) and self.around(corners, p) is False
                high = high and on_border(corners, p, 1) and self.around(corners, p) is not True
        return low, high

    def test_random_places(self):
        """At all whole places of small boards."""
        rng, maker = random.Random(28), Areas()
        for _ in range(20 * MANY):
            size = rng.choice((6, 9, 12))
            items = [(True, [(0, 0), (size, 0), (size, size), (0, size)])] + maker.items(rng, size)
            items = [it for it in items if len(set(it[1])) > 1]
            low, high = self.bounds(*items)
            for p in ((x, y) for x in range(-1, size + 2) for y in range(-1, size + 2)):
                least, most = self.truth(items, p)
                self.assertTrue(least or not holds(low, p, 1), (items, p))
                self.assertTrue(not most or holds(high, p, 1), (items, p))


class Rounds(unittest.TestCase):
    def test_places(self):
        rng = random.Random(24)
        for _ in range(30 * MANY):
            r = rng.choice((1, 2, 5, 9, 100, 1500, 10**5, 5 * 10**6)) * rng.randint(1, 3)
            d = tuple(rng.choice((0, rng.randint(-r * 4, r * 4), rng.randint(-(10**8), 10**8))) for _ in "xy")
            inner, outer = in_it(*d, r), round_it(*d, r)
            for _ in range(40):
                t, end = rng.random() * 7, rng.choice(((0, 0), d, (d[0] // 2, d[1] // 2)))
                p = tuple(round((v + r * f(t)) * FINE) + rng.randint(-4, 4) for v, f in zip(end, (math.cos, math.sin)))
                inside = point_within(p, (0, 0), fine(d), r * FINE)
                self.assertTrue(inside or not inner or not encloses(inner, p), (d, r, p))
                self.assertTrue(not inside or has([Area(outer)], p), (d, r, p))
            self.assertTrue(inner or r < 9, (d, r))

    def test_clear_arcs_over_dark_ones(self):
        """Arcs over nearly the same ones: an arc is one area round it, and the sweep takes some seconds."""
        lines = ["%FSLAX46Y46*%", "%MOMM*%", "G75*", "%ADD10C,0.5*%", "D10*"]
        for x in range(10_000_000, 14_500_000, 300_000):
            for word, by in (("LPD", 0), ("LPC", 3)):
                lines += [f"%{word}*%", f"X{x + by}Y0D02*", f"G03X{-x - by}Y0I{-x - by}J0D01*"]
        began = time.process_time()
        copper = of_text("\n".join([*lines, "M02*", ""]))
        self.assertLess(time.process_time() - began, 10)
        self.assertLess(max(len(side.lines) for side in copper.sides), 20_000)

    def test_rings(self):
        """Draws along arcs, also with pens wider than the arc."""
        rng = random.Random(27)
        for _ in range(8 * MANY):
            radius, a, b = circle_ends(rng, 400)
            pen = rng.choice((rng.randrange(10**4, 2 * 10**6), rng.randrange(10**4, radius * 3 + 2 * 10**4)))
            chain, _ = arc_chain((0, 0), a, b)
            low, high = ([Area(corners) for corners in its] for its in ring((0, 0), chain, pen))
            for _ in range(40):
                t, side, end, off = (
                    rng.random() * 7,
                    rng.choice((-1, 1)),
                    rng.choice((None, None, a, b)),
                    rng.choice((2, 12, 5000, 20000)),
                )
                at = [
                    v + pen * f(t) if end else (radius + side * pen) * f(t)
                    for v, f in zip(end or a, (math.cos, math.sin))
                ]
                p = tuple(round(v * FINE) + rng.randint(-off, off) for v in at)
                square, reach = p[0] ** 2 + p[1] ** 2, pen * FINE
                truth = any(point_within(p, fine(e), fine(e), reach) for e in (a, b)) or (
                    in_sector(fine(a), fine(b), p)
                    and square <= (radius * FINE + reach) ** 2
                    and (pen >= radius or square >= (radius * FINE - reach) ** 2)
                )
                self.assertTrue(truth or not has(low, p), (radius, a, b, pen, p))
                self.assertTrue(not truth or has(high, p), (radius, a, b, pen, p))


# ---- objects: what a place of quarters of a u says of them, None on their borders


def side_of(value):
    return True if value > 0 else False if value < 0 else None


def disc(c, r):
    return lambda p: side_of((r * FINE) ** 2 - (p[0] - c[0] * FINE) ** 2 - (p[1] - c[1] * FINE) ** 2)


def block(c, w, h):
    return lambda p: every(
        (side_of(w * FINE - 2 * abs(p[0] - c[0] * FINE)), side_of(h * FINE - 2 * abs(p[1] - c[1] * FINE)))
    )


def capsule(a, b, r):
    def inside(p):
        if point_within(p, fine(a), fine(b), r * FINE):
            return True if point_within(p, fine(a), fine(b), r * FINE - 1) else None
        return False

    return inside


def annulus(c, radius, r):
    def inside(p):
        square = (p[0] - c[0] * FINE) ** 2 + (p[1] - c[1] * FINE) ** 2
        low = True if r > radius else side_of(square - ((radius - r) * FINE) ** 2)
        return every((low, side_of(((radius + r) * FINE) ** 2 - square)))

    return inside


def area(corners):
    return lambda p: None if on_border(corners, p, FINE) else encloses(corners, p)


def layered(parts):
    def inside(p):
        state = False
        for dark, part in parts:
            said = part(p)
            if said is None:
                return None
            state = dark if said else state
        return state

    return inside


def moved(part, x, y):
    return lambda p: part((p[0] - x * FINE, p[1] - y * FINE))


class Board:
    """A file of random objects, and what each is."""

    def __init__(self, rng, size):
        self.rng, self.size, self.objects, self.dark, self.first, self.text = rng, size, [], True, None, []
        self.lines = ["%FSLAX46Y46*%", "%MOMM*%", "G75*"]
        self.apertures = [self.aperture(k + 10) for k in range(6)]
        for _ in range(rng.randint(3, 14)):
            if rng.random() < 0.5:
                self.dark = rng.random() < 0.5
                self.lines.append("%LPD*%" if self.dark else "%LPC*%")
            if rng.random() < 0.1:
                self.step()
            getattr(self, rng.choice(("flash", "flash", "draw", "region", "region", "round")))()
        self.copies(None)
        if not any("LPC" in line for line in self.lines):
            self.lines.append("%LPC*%")
        self.text = "\n".join(self.lines + ["M02*", ""])

    def length(self, least=1):
        return self.rng.randint(least, max(least, self.size // 3)) * 2

    def spot(self):
        """In nanometres."""
        return self.rng.randint(0, self.size), self.rng.randint(0, self.size)

    def add(self, part):
        self.objects.append((self.dark, part))

    def aperture(self, number):
        kind, (w, h) = self.rng.choice("CCRROM"), (self.length(), self.length())
        mm = lambda v: f"{Q(v, 10 ** 6).numerator}/{Q(v, 10 ** 6).denominator}"
        dec = lambda v: f"{v // 10 ** 6}.{v % 10 ** 6:06d}"
        if kind == "M":
            turn = self.rng.choice((0, 90, 180, 270))
            x, y = self.rng.randint(0, w), self.rng.randint(0, h)
            body = [
                f"1,1,{mm(3 * w)},0,0",
                f"21,0,{mm(w)},{mm(h)},{mm(x)},{mm(y)},{turn}",
                f"1,0,{mm(h)},{mm(x)},0",
                f"7,0,0,{mm(4 * w)},{mm(2 * w)},{mm(h)},{turn}",
            ]
            at = {0: (x, y), 90: (-y, x), 180: (-x, -y), 270: (y, -x)}[turn]
            sizes = (w, h) if turn in (0, 180) else (h, w)
            parts = [
                (True, disc((0, 0), 15 * w)),
                (False, block((at[0] * 10, at[1] * 10), sizes[0] * 10, sizes[1] * 10)),
                (False, disc((x * 10, 0), 5 * h)),
                (
                    True,
                    layered(
                        [
                            (True, disc((0, 0), 20 * w)),
                            (False, disc((0, 0), 10 * w)),
                            (False, block((0, 0), 40 * w, 10 * h)),
                            (False, block((0, 0), 10 * h, 40 * w)),
                        ]
                    ),
                ),
            ]
            if h >= 4 * w:
                body, parts = body[:3], parts[:3]
            self.lines += ["%AM" + f"M{number}*" + "*".join(body) + "*%", f"%ADD{number}M{number}*%"]
            return kind, layered(parts), None
        self.lines.append(f"%ADD{number}{kind},{dec(w)}" + ("*%" if kind == "C" else f"X{dec(h)}*%"))
        if kind == "C":
            return kind, disc((0, 0), 5 * w), 5 * w
        if kind == "R":
            return kind, block((0, 0), 10 * w, 10 * h), None
        a = (5 * (w - h), 0) if w > h else (0, 5 * (h - w))
        return kind, capsule((-a[0], -a[1]), a, 5 * min(w, h)), None

    def flash(self):
        k, (x, y) = self.rng.randrange(6), self.spot()
        self.lines += [f"D{k + 10}*", f"X{x}Y{y}D03*"]
        self.add(moved(self.apertures[k][1], 10 * x, 10 * y))

    def pen(self):
        pens = [k for k in range(6) if self.apertures[k][0] == "C"]
        if not pens:
            return None
        k = self.rng.choice(pens)
        self.lines.append(f"D{k + 10}*")
        return self.apertures[k][2]

    def draw(self):
        radius, a, b = self.pen(), self.spot(), self.spot()
        if radius:
            self.lines += [f"X{a[0]}Y{a[1]}D02*", f"G01X{b[0]}Y{b[1]}D01*"]
            self.add(capsule((10 * a[0], 10 * a[1]), (10 * b[0], 10 * b[1]), radius))

    def round(self):
        """A draw along a whole circle."""
        radius, c, off = self.pen(), self.spot(), self.length(100)
        if radius:
            self.lines += [f"X{c[0] + off}Y{c[1]}D02*", f"G03X{c[0] + off}Y{c[1]}I{-off}J0D01*", "G01*"]
            self.add(annulus((10 * c[0], 10 * c[1]), 10 * off, radius))

    def region(self):
        corners = Areas().contour(self.rng, self.size)
        self.lines += [
            "G36*",
            "X%dY%dD02*" % corners[0],
            *("X%dY%dD01*" % p for p in corners[1:] + corners[:1]),
            "G37*",
        ]
        self.add(area([(10 * x, 10 * y) for x, y in corners]))

    def step(self):
        columns, rows, x, y = (
            self.rng.randint(1, 2),
            self.rng.randint(1, 2),
            self.rng.randint(0, self.size // 2),
            self.rng.randint(0, self.size // 2),
        )
        dec = lambda v: f"{v // 10 ** 6}.{v % 10 ** 6:06d}"
        self.lines.append(f"%SRX{columns}Y{rows}I{dec(x)}J{dec(y)}*%")
        self.copies((len(self.objects), columns, rows, 10 * x, 10 * y))

    def copies(self, opened):
        if self.first:
            first, columns, rows, x, y = self.first
            once = self.objects[first:]
            self.objects[first:] = [
                (dark, moved(part, i * x, j * y)) for i in range(columns) for j in range(rows) for dark, part in once
            ]
        self.first = (len(self.objects), *opened[1:]) if opened else None

    def place(self, low, high):
        """Near a border of what was written, mostly."""
        pieces, rng = low + high, self.rng
        if not pieces or rng.random() < 0.3:
            return tuple(rng.randint(-5 * self.size, 20 * self.size) * FINE for _ in "xy")
        piece, off = rng.choice(pieces), rng.choice((2, 12, 400, 20000))
        if isinstance(piece, Area):
            k, t = rng.randrange(len(piece.corners)), rng.random()
            at = [u + (v - u) * t for u, v in zip(piece.corners[k - 1], piece.corners[k])]
        else:
            t, r = rng.random() * 7, piece.radius
            at = [rng.choice(piece[:2])[k] + r * f(t) for k, f in ((0, math.cos), (1, math.sin))]
        return tuple(round(v * FINE) + rng.randint(-off, off) for v in at)


class Objects(unittest.TestCase):
    """Circles, rectangles, obrounds, macros with exposure off and thermals, draws, arcs, regions and blocks, dark and clear."""

    def test_places(self):
        rng, asked = random.Random(25), 0
        for _ in range(15 * MANY):
            board = Board(rng, rng.choice((40, 3000, 10**6, 10**6)))
            copper = of_text(board.text)
            low, high = map(pieces_of, copper.sides)
            for _ in range(60):
                p = board.place(low, high)
                truth = layered(board.objects)(p)
                asked += truth is not None
                self.assertFalse(truth is False and has(low, p), (board.text, p))
                self.assertFalse(truth is True and not has(high, p), (board.text, p))
        self.assertGreater(asked, 500 * MANY)

    def test_close(self):
        """What is a micrometre inside lies in LOWER, what is a micrometre outside does not lie in UPPER."""
        rng, asked, off = random.Random(26), 0, MICROMETRE * FINE
        for _ in range(4 * MANY):
            board = Board(rng, 10**6)
            copper = of_text(board.text)
            low, high = map(pieces_of, copper.sides)
            for _ in range(30):
                p, truth = board.place(low, high), layered(board.objects)
                around = {
                    truth((p[0] + dx, p[1] + dy))
                    for dx in range(-off, off + 1, off // 4)
                    for dy in range(-off, off + 1, off // 4)
                }
                if len(around) == 1 and None not in around:
                    asked += 1
                    self.assertTrue(around == {False} or has(low, p), (board.text, p))
                    self.assertTrue(around == {True} or not has(high, p), (board.text, p))
        self.assertGreater(asked, 15 * MANY)


def nm(v):
    return round(v * 10**6)


def closed(*spots):
    return ["G36*", "X%dY%dD02*" % spots[0], *("X%dY%dD01*" % p for p in spots[1:] + spots[:1]), "G37*"]


def draw(tool, *spots):
    return [f"D{tool}*", "X%dY%dD02*" % spots[0], *("X%dY%dD01*" % p for p in spots[1:])]


class Plane:
    """A plane with n times n vias: every other one joined by four spokes, the others within antipads; tilted by a slope of 1 : tilt."""

    HEAD = [
        "%FSLAX46Y46*%",
        "%MOMM*%",
        "G75*",
        "G01*",
        "%ADD10C,0.6*%",
        "%ADD11C,1.0*%",
        "%ADD12C,0.2*%",
        "%AMTH*7,0,0,1.0,0.6,0.2,45*%",
        "%ADD14TH*%",
    ]

    def __init__(self, n, tilt=0, how="flash"):
        self.tilt, self.how, self.broken, self.shorted, self.more = tilt, how, (), (), []
        self.vias = [(2 * i + 2, 2 * j + 2, (i + j) % 2 == 0, (i, j)) for i in range(n) for j in range(n)]
        self.size = 2 * n + 2

    def at(self, x, y):
        t = self.tilt and 1 / self.tilt
        return nm(x - y * t), nm(y + x * t)

    def spoke(self, via, d):
        x, y, _, _ = via
        return draw(12, self.at(x, y), self.at(x + 0.62 * d[0], y + 0.62 * d[1]))

    def antipad(self, via):
        x, y = self.at(*via[:2])
        if via[2] and self.how == "thermal":
            return ["D14*", f"X{x}Y{y}D03*"]
        if self.how == "region":
            return ["G36*", f"X{x + nm(.5)}Y{y}D02*", f"G03X{x + nm(.5)}Y{y}I{-nm(.5)}J0D01*", "G01*", "G37*"]
        return ["D11*", f"X{x}Y{y}D03*"]

    def copper(self):
        s, lines = self.size, [*self.HEAD]
        lines += closed(*(self.at(*p) for p in ((0, 0), (s, 0), (s, s), (0, s))))
        lines += self.more + ["%LPC*%"]
        for via in self.vias:
            lines += self.antipad(via)
        lines.append("%LPD*%")
        for via in self.vias:
            for d in (
                ((1, 0), (0, 1), (-1, 0), (0, -1))
                if via[2] and self.how != "thermal" and via[3] not in self.broken
                else ()
            ):
                lines += self.spoke(via, d)
            if via[3] in self.shorted:
                lines += self.spoke(via, (1, 0))
            if not (via[2] and self.how == "thermal"):
                lines += ["D10*", "X%dY%dD03*" % self.at(*via[:2])]
        return "\n".join([*lines, "M02*", ""])

    def records(self):
        for k, (x, y, joined, _) in enumerate(self.vias):
            yield record("GND" if joined else f"N{k}", f"V{k}.1", *(v / 10**6 for v in self.at(x, y)))


@unittest.skipUnless(built(), "the program is not built")
class Boards(made.Case):
    """Planes as Allegro and Altium write them, over the built program: right, and not needlessly undecided."""

    def told(self, plane, *more):
        self.write("board/m.json", manifest())
        self.write("board/top.gbr", plane.copper())
        self.write("board/n.ipc", netlist(*plane.records(), *more))
        status, out, _ = self.show("board", "--all", "--explain", program=built())
        return status, out

    def test_agrees(self):
        for how in ("flash", "region", "thermal"):
            for tilt in (0, 7, 3 * 10**6):
                status, out = self.told(Plane(4, tilt, how))
                self.assertEqual(
                    (status, "the words of the rules: agrees, between two bounds" in out), (0, True), (how, tilt, out)
                )

    def test_differs(self):
        for tilt in (0, 10**3, 3 * 10**6):
            plane = Plane(4, tilt, "region")
            plane.broken, plane.shorted = [(1, 1)], [(2, 1)]
            status, out = self.told(plane)
            self.assertEqual(
                (
                    status,
                    [
                        "2 faults are certain. " in out.splitlines()[0],
                        "bounds: lower differs, opens 1, shorts 1, missing 0; upper differs, opens 1, shorts 1" in out,
                    ],
                ),
                (1, [True] * 2),
                out,
            )

    def test_split(self):
        """A clear line through the plane parts its nets; dark copper over it joins them again."""
        for tilt in (0, 10**3, 3 * 10**6):
            plane = Plane(4, tilt)
            plane.vias = [via for via in plane.vias if via[3][0] != 1]
            plane.more = ["%LPC*%", *draw(12, plane.at(3, -1), plane.at(3, 11)), "%LPD*%"]
            status, out = self.told(plane)
            self.assertEqual((status, "GND is in 2 parts" in out, "undecided" in out), (1, True, False), out)
            plane.more += draw(12, plane.at(2, 9.5), plane.at(4, 9.5))
            self.assertEqual(self.told(plane)[0], 0)

    def test_dark_under_clear(self):
        """Tracks that leave the plane across its borders, drawn before the clear objects: joined copper stays joined."""
        for tilt in (0, 10**3, 10**7):
            plane, more = Plane(3, tilt), []
            for k in range(1, 8):
                for x, y, dx, dy in ((k, 0, 0, -1.5), (k, 8, 0, 1.5), (0, k, -1.5, 0), (8, k, 1.5, 0)):
                    a, b = plane.at(x - dx / 5, y - dy / 5), plane.at(x + dx, y + dy)
                    plane.more += draw(12, a, b)
                    more.append(record("GND", f"T{len(more)}.1", b[0] / 10**6, b[1] / 10**6))
            plane.more += ["%LPC*%", "D12*"]
            plane.more += [
                line
                for k in range(1, 8)
                for x, y in ((k + 0.5, -0.6), (k + 0.5, 8.6))
                for line in draw(12, plane.at(x, y), plane.at(x - 0.35, y))
            ]
            status, out = self.told(plane, *more)
            self.assertEqual(status, 0, (tilt, out))

    def test_clear_rings(self):
        """A plane with a ring cleared out of it, by any aperture: what is within the ring is joined to nothing, but over a thermal's bars."""
        macro = lambda *lines: ["%AMRING*", *(line + "*" for line in lines[:-1]), lines[-1] + "*%", "%ADD20RING*%"]
        rings = [
            macro("1,1,3,0,0", "1,0,2,0,0"),
            macro("21,1,3,3,0,0,0", "1,0,2,0,0"),
            macro("7,0,0,3,2,0,0"),
            macro("5,1,6,0,0,3,15", "1,0,2,0,0"),
            ["%ADD20O,4X3X2*%"],
            ["%ADD20O,3X4X2*%"],
            ["%ADD20P,4X6X0X2*%"],
            ["%ADD20P,4X3X10X1*%"],
            ["%ADD20R,4X3X2*%"],
            ["%ADD20C,4X2*%"],
        ]
        square = [
            "G36*",
            *draw(10, *((nm(x), nm(y)) for x, y in ((-4, -4), (4, -4), (4, 4), (-4, 4), (-4, -4))))[1:],
            "G37*",
        ]
        records = [record("A", "J1.1", -3, 0), record("A", "J1.2", 3, 3.5), record("B", "J2.1", 0, 0)]
        for lines, words in [(it, "PASS") for it in rings] + [
            (macro("7,0,0,3,2,0.4,0"), "FAIL"),
            (macro("7,0,0,3,2,0.4,45"), "FAIL"),
        ]:
            self.write("board/m.json", manifest())
            self.write(
                "board/top.gbr",
                "\n".join(
                    ["%FSLAX46Y46*%", "%MOMM*%", "G01*", *lines, *square, "%LPC*%", "D20*", "X0Y0D03*", "M02*", ""]
                ),
            )
            self.write("board/n.ipc", netlist(*records))
            self.assertTrue(
                re.match(
                    f"{words} board: .* Certain: the same for the least and the most ",
                    self.show("board", program=built())[1],
                ),
                lines,
            )

    def negative(self, plane, word, profile):
        """The same plane as a negative file: the voids are dark and what is in them is clear."""
        whole, size = plane.copper, plane.size
        other = {"%LPC*%": "%LPD*%", "%LPD*%": "%LPC*%"}
        lines = whole().split("\n")
        first = lines.index("%LPC*%")
        plane.copper = lambda: "\n".join([*Plane.HEAD, word, *(other.get(line, line) for line in lines[first:])])
        self.write(
            "board/edge.gbr",
            "\n".join(
                [
                    "%TF.FileFunction,Profile,NP*%",
                    *Plane.HEAD,
                    *draw(12, (0, 0), (nm(size), 0), (nm(size), nm(size)), (0, nm(size)), (0, 0)),
                    "M02*",
                    "",
                ]
            )
            if profile
            else "",
        )

    def test_negative(self):
        """By both words, with and without a profile file; without one nobody knows where the plane ends."""
        far = record("GND", "E1.1", 0.1, 9.9)
        for word in ("%IPNEG*%", "%TF.FilePolarity,Negative*%"):
            plane = Plane(4)
            self.negative(plane, word, True)
            self.assertEqual(self.told(plane, far)[0], 0, word)
            plane = Plane(4)
            self.negative(plane, word, False)
            status, out = self.told(plane, far)
            self.assertEqual(
                (status, "no copper lies under E1 pin 1" in out, "since the board's outline is not known" in out),
                (11, False, True),
                out,
            )
            plane = Plane(4)
            plane.broken, plane.shorted = [(1, 1)], [(2, 1)]
            self.negative(plane, word, True)
            status, out = self.told(plane)
            self.assertEqual(
                (status, "lower differs, opens 1, shorts 1, missing 0; upper differs, opens 1, shorts 1" in out),
                (1, True),
                out,
            )

    def test_negative_by_any_name(self):
        """The profile file is found however the board is named, past a file beside it that cannot be read."""
        plane, far = Plane(2), record("GND", "E1.1", 0.1, 5.9)
        self.negative(plane, "%IPNEG*%", True)
        self.told(plane, far)
        with zipfile.ZipFile(self.path("board.zip"), "w") as archive:
            for name in os.listdir(self.path("board")):
                archive.write(self.path("board", name), name)
        os.symlink("/proc/self/mem", self.path("board", "a.gbr"))
        for words, folder in (
            ("board", None),
            ("board.zip", None),
            ("m.json", self.path("board")),
            (".", self.path("board")),
        ):
            status, out, _ = self.show(words, folder=folder, program=built())
            self.assertEqual(
                (status, "Certain: the same for the least and the most copper" in out), (0, True), (words, out)
            )

    def test_negative_twice(self):
        plane = Plane(2)
        self.negative(plane, "%IPNEG*%\n%TF.FilePolarity,Negative*%", True)
        status, out = self.told(plane)
        self.assertEqual(
            (status, "but that is not known: top.gbr: a file that is negative twice" in out), (3, True), out
        )

    def test_long_contour(self):
        """A contour of more than 100,000 edges is cut along a chord: the answer is no bound."""
        steps = 50_300
        left = [(nm(k % 2 * 0.001), 200 * k) for k in range(steps)]
        right = [(nm(5 + k % 2 * 0.001), 200 * k) for k in range(steps)]
        plane = Plane(1)
        plane.copper = lambda: "\n".join([*plane.HEAD, *closed(*left, *right[::-1]), "M02*", ""])
        plane.records = lambda: iter([record("A", "J1.1", 1, 1), record("A", "J1.2", 4, 9), record("B", "J2.1", 6, 9)])
        status, out = self.told(plane)
        self.assertEqual(
            (status, out.splitlines()[0]),
            (
                1,
                f"FAIL board: 1 test point without copper. {SURE} Judged on a copy of top.gbr, rewritten to say the same in simpler words.",
            ),
            out,
        )


if __name__ == "__main__":
    unittest.main()
