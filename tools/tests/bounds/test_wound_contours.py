"""Contours that go round a place an even number of times: which are noted, and where."""
import math
import random
import unittest

from boardnet_show.bounds.files.wound_contours import wound_twice
from tests.fixtures import made
from tests.fixtures.made import flash, manifest, netlist, record

SCALE = 1_000_000
SQUARE = [(0, 0), (10, 0), (10, 10), (0, 10)]
STAR = [(0, 10), (6, -8), (-10, 4), (10, 4), (-6, -8)]
CUT_IN = [
    (0, 0),
    (90, 0),
    (90, 90),
    (0, 90),
    (0, 50),
    (30, 50),
    (30, 60),
    (60, 60),
    (60, 30),
    (30, 30),
    (30, 50),
    (0, 50),
]


def turns(corners, place):
    """How often a contour goes round a place, by the angles at which its edges are seen."""
    sides = [(x - place[0], y - place[1]) for x, y in corners]
    return abs(
        round(
            sum(
                math.atan2(a[0] * b[1] - a[1] * b[0], a[0] * b[0] + a[1] * b[1])
                for a, b in zip(sides, sides[1:] + sides[:1])
            )
            / math.tau
        )
    )


class Places(unittest.TestCase):
    def test_rows(self):
        """A star's middle, a loop, and what runs twice the same way; not what is gone round once, or thrice, or to and fro."""
        same_turn = CUT_IN[:5] + [(30, 50), (30, 30), (60, 30), (60, 60), (30, 60), (30, 50), (0, 50)]
        loop = [(0, 0), (10, 0), (10, 6), (4, 6), (4, 3), (6, 3), (6, 10), (0, 10)]
        for corners, wanted in (
            (STAR, 2),
            (loop, 2),
            (SQUARE * 2, 2),
            (SQUARE * 4, 4),
            (same_turn, 2),
            (SQUARE, 0),
            (SQUARE * 3, 0),
            (CUT_IN, 0),
            (SQUARE + SQUARE[:1] + SQUARE[:0:-1], 0),
            ([(0, 0), (10, 10), (10, 0), (0, 10)], 0),
            ([(0, 0), (10, 0), (5, 5), (10, 10), (0, 10), (5, 5)], 0),
            ([(0, 0), (10, 0), (5, 0), (5, 9)], 0),
            ([(0, 0), (10, 0)], 0),
            ([(0, 0)], 0),
        ):
            for its in (corners, corners[::-1], [(y, x) for x, y in corners]):
                with self.subTest(corners=its):
                    its = [(x * SCALE, y * SCALE) for x, y in its]
                    found = wound_twice(its)
                    self.assertEqual(found.times if found else 0, wanted)
                    self.assertEqual(turns(its, found.place) if found else 0, wanted)

    def test_random_ones(self):
        """Contours with corners on a few places of a grid: one is found where one of many places is gone round twice, and there alone."""
        rng, seen = random.Random(1), [0, 0]
        for _ in range(400):
            corners = [(rng.randint(0, 4) * SCALE, rng.randint(0, 4) * SCALE) for _ in range(rng.randint(3, 9))]
            some = [
                turns(corners, ((x + 0.37) * SCALE / 5, (y + 0.41) * SCALE / 5)) for x in range(20) for y in range(20)
            ]
            found = wound_twice(corners)
            seen[bool(found)] += 1
            if found:
                self.assertEqual(turns(corners, found.place), found.times, corners)
                self.assertEqual((found.times > 0, found.times % 2), (True, 0), corners)
            self.assertTrue(found or not any(it and it % 2 == 0 for it in some), corners)
        self.assertGreater(min(seen), 50)


class Notes(made.Case):
    def test_a_note(self):
        """A note alone, once a file: the answer stays."""
        for corners, more in (
            (
                SQUARE * 2,
                "readers differ on it: a contour goes 2 times round what lies at 5.000, 0.000 mm, command 19, line 19: there is no copper here",
            ),
            (SQUARE, ""),
        ):
            top = [*flash(10, (20, 0), (20, 9)), *made.region(*corners)]
            self.board(
                {
                    "m.json": manifest(),
                    "top.gbr": top,
                    "n.ipc": netlist(record("A", "J1.1", 20, 0), record("B", "J1.2", 20, 9)),
                }
            )
            status, out, _ = self.show("board")
            self.assertEqual((status, "readers differ" in out, more in out), (0, bool(more), True), out)


if __name__ == "__main__":
    unittest.main()
