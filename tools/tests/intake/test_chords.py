"""Long contours cut along chords: the parts' copper is the whole's, by exact areas and at many places."""
import random
import unittest
from fractions import Fraction
from typing import List
from unittest import mock

from boardnet_show.geometry import contour_sweep
from boardnet_show.intake.mends import chords
from tests.fixtures import planes


def has(corners: List[planes.Spot], x: Fraction, y: Fraction) -> bool:
    """Whether a place is on an edge, or enclosed by even and odd."""
    odd = False
    for (a, b), (c, d) in zip(corners, corners[1:] + corners[:1]):
        turn = (c - a) * (y - b) - (x - a) * (d - b)
        if turn == 0 and min(a, c) <= x <= max(a, c) and min(b, d) <= y <= max(b, d):
            return True
        odd ^= (b <= y) != (d <= y) and (turn > 0) == (d > b)
    return odd


class SameCopper(unittest.TestCase):
    def parts(self, corners: List[planes.Spot], most: int) -> List[List[planes.Spot]]:
        """The parts of a contour, which begin with its first corner; none where it is not cut."""
        with mock.patch.object(chords, "MOST_EDGES", most):
            parts = chords.cut(corners)
        if parts is None or len(parts) == 1:
            return []
        self.assertEqual(parts[0][0], (corners[0], 0))
        self.assertTrue(all(corners[number] == spot for part in parts for spot, number in part if number is not None))
        found = [[spot for spot, _ in part] for part in parts]
        self.assertTrue(all(3 <= len(part) <= most for part in found))
        return found

    def compared(self, corners: List[planes.Spot], parts: List[List[planes.Spot]], chance: random.Random) -> None:
        self.assertEqual(planes.doubled_area(corners), sum(map(planes.doubled_area, parts)), (corners, parts))
        xs, ys = [x for x, _ in corners], [y for _, y in corners]
        for _ in range(12):
            unit = chance.choice((1, 2, 3, 7))
            x, y = (Fraction(chance.randrange(unit * (min(it) - 1), unit * (max(it) + 2)), unit) for it in (xs, ys))
            self.assertEqual(any(has(part, x, y) for part in parts), has(corners, x, y), (corners, parts, x, y))

    @staticmethod
    def are_joined(parts: List[List[planes.Spot]]) -> bool:
        met, others = [parts[0]], parts[1:]
        for part in met:
            near = [it for it in others if any(has(part, *spot) for spot in it) or any(has(it, *spot) for spot in part)]
            met += near
            others = [it for it in others if it not in near]
        return not others

    def test_planes(self):
        """Each is cut, whose parts may be few; each part meets another one, so all are joined."""
        chance = random.Random(5)
        for k in range(120):
            corners = planes.plane(chance)
            most = max(8, len(corners) // chance.choice((2, 3, 6)))
            with self.subTest(k):
                parts = self.parts(corners, most)
                self.assertTrue(parts or len(corners) <= most, (corners, most))
                if parts:
                    self.compared(corners, parts, chance)
                    self.assertTrue(self.are_joined(parts), (corners, parts))

    def test_any_corners(self):
        """Contours of random corners cross themselves and run along themselves: few can be cut, and these are the
        same copper."""
        chance, cut = random.Random(6), 0
        for _ in range(400):
            corners = [(chance.randrange(7), chance.randrange(7)) for _ in range(chance.randrange(9, 20))]
            parts = self.parts(corners, chance.choice((6, 8)))
            if parts:
                cut += 1
                self.compared(corners, parts, chance)
        self.assertGreater(cut, 20)

    def test_even_parts(self):
        """A plane whose copper hangs together at its right border alone is cut in the middle: one chord between two
        corners there."""
        rows = [(100, 10 * k) for k in range(41)]
        teeth = [(x, 10 * k - y) for k in range(40, 0, -1) for x, y in ((0, 0), (0, 3), (90, 3), (0, 3))]
        sides = [*rows, *teeth, (0, 0)]
        parts = self.parts(sides, len(sides) // 2 + 8)
        self.assertEqual(len(parts), 2)
        self.compared(sides, parts, random.Random(1))

    def test_many_crossings(self):
        """A contour that crosses itself more often than is looked at is none for a sweep."""
        chance = random.Random(1)
        corners = [(chance.randrange(10**6), chance.randrange(10**6)) for _ in range(40)]
        with mock.patch.object(contour_sweep, "MOST_CROSSINGS", 20):
            self.assertRaises(contour_sweep.Crossed, contour_sweep.ContourSweep, corners, 2)
            self.assertIsNone(chords.parted(corners))


class Diagonals(unittest.TestCase):
    def test_as_many_as_triangles_have(self):
        """A contour without holes is filled with triangles: three less than corners, and each diagonal is free and in
        the copper."""
        chance = random.Random(2)
        for _ in range(40):
            count = chance.randrange(5, 40)
            high = sorted(chance.sample(range(1, 1000), count), reverse=True)
            corners = [(0, 0), *((1000 + chance.randrange(400), 1000 - y) for y in high), (1, 1000)]
            sweep = contour_sweep.ContourSweep(corners, 2)
            self.assertEqual(len(sweep.found), len(corners) - 3, corners)
            self.assertEqual(len({frozenset(pair) for pair in sweep.found}), len(corners) - 3)
            for pair in sweep.found:
                self.assertTrue(chords.is_free(corners, *pair) and chords.is_copper(corners, *pair), (corners, pair))
                self.assertTrue(sweep.lie_apart(*sorted(pair)), (corners, pair))

    def test_parts_that_overlap(self):
        """A chord from the wrong one of two corners at a place has parts that overlap, and is not taken."""
        hole = [(30, 50), (40, 60), (60, 60), (70, 50), (60, 40), (40, 40), (30, 50)]
        corners = [(0, 0), (100, 0), (100, 100), (0, 100), (0, 50), *hole, (0, 50)]
        sweep = contour_sweep.ContourSweep(corners, 2)
        self.assertTrue(sweep.lie_apart(3, 5))
        self.assertFalse(sweep.lie_apart(3, 11))
        self.assertEqual(sorted(sweep.same[5]), [5, 11])
