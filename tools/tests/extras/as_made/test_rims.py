"""Areas round the edges of a contour: they hold all that is within half a width of these, and little more."""
import random
import unittest
from math import cos, hypot, pi, sin

from boardnet_show.extras.as_made import rims
from boardnet_show.geometry.distances import from_line
from boardnet_show.geometry.segments import cross, edges


def rounds(draws, count, jitter):
    """A contour about a disc of 0.5 mm, with corners that are off it by random steps."""
    off = lambda: draws.randrange(-jitter, jitter + 1)
    angles = [2 * pi * k / count for k in range(count)]
    return [(round(5_000_000 * cos(it)) + off(), round(5_000_000 * sin(it)) + off()) for it in angles]


def has(corners, place):
    return all(cross(a, b, place) >= 0 for a, b in edges(corners))


class Rims(unittest.TestCase):
    def test_all_is_held(self):
        draws, few, all_areas = random.Random(3), 0, 0
        for _ in range(60):
            corners = rounds(draws, draws.choice([3, 8, 28, 32, 64]), draws.choice([0, 0, 3, 4000, 90_000]))
            corners = corners[:: draws.choice([1, -1])]
            half = draws.choice([1, 7, 500_000, 2_000_000])
            lines = rims.bordering(corners, {rims.key((corners[1], corners[2]))} if draws.random() < 0.5 else ())
            found = list(rims.round_edges(lines, half))
            few, all_areas = few + sum(len(it) == 4 for it in found), all_areas + len(found)
            for a, b in filter(None, lines):
                for _ in range(6):
                    part, angle, far = draws.random(), draws.random() * 2 * pi, half * draws.choice([0.2, 0.9, 1])
                    place = tuple(
                        int(p + part * (q - p) + far * turn) for p, q, turn in zip(a, b, (cos(angle), sin(angle)))
                    )
                    if from_line(place, a, b) < half:
                        self.assertTrue(any(has(it, place) for it in found), (corners, half, place))
            for corner in (corner for it in found if len(it) == 4 for corner in it):
                least = min(from_line(corner, a, b) for a, b in filter(None, lines))
                self.assertLess(least, half * 1.009 + 8)
        self.assertGreater(few * 10, all_areas * 3)

    def test_borders(self):
        """A line to a hole that is run along twice is no border; the hole's own edges are."""
        hole, outline = [(4, 4), (4, 6), (6, 6), (6, 4), (4, 4)], [(0, 0), (9, 0), (9, 9), (0, 9)]
        corners = [*hole, *outline, (0, 0)]
        found = [line for line in rims.bordering(corners, ()) if line]
        self.assertEqual(found, [*edges(hole)[:-1], *edges(outline)])
        self.assertEqual(len(rims.bordering(corners, {((0, 0), (9, 0))})), len(rims.own_edges(corners)))
        self.assertEqual(len(list(rims.round_edges(rims.bordering(outline, ()), 2))), 4)


if __name__ == "__main__":
    unittest.main()
