"""Copper without width: which contours are noted, and where."""
import unittest

from boardnet_show.bounds.files.widthless_contours import MOST_CORNERS, may_have, told_of
from tests.fixtures import made
from tests.fixtures.made import flash, manifest, netlist, record

HEAD = ["%FSLAX46Y46*%", "%MOMM*%"]


def contour(*corners):
    return [f"X{x}Y{y}D0{2 if k == 0 else 1}*" for k, (x, y) in enumerate([*corners, corners[0]])]


def told(*contours):
    return told_of(
        "\n".join([*HEAD, "G36*", *(line for its in contours for line in contour(*its)), "G37*", "M02*", ""]).encode()
    )


class Contours(unittest.TestCase):
    SQUARE = [(0, 0), (10, 0), (10, 10), (0, 10)]

    def test_long_ones(self):
        """A file of long contours alone is not walked through."""
        long = contour(*((k, k % 9) for k in range(MOST_CORNERS + 1)))
        for regions, wanted in (([long], False), ([long] * 3, False), ([long, contour(*self.SQUARE)], True)):
            lines = [line for its in regions for line in ("G36*", *its, "G37*")]
            self.assertEqual(may_have("\n".join([*HEAD, *lines, "M02*", ""]).encode()), wanted)
        both = [*HEAD, "G36*", *long, *contour(*self.SQUARE), "G37*", "M02*", ""]
        self.assertTrue(may_have("\n".join(both).encode()))
        self.assertFalse(may_have("\n".join([*HEAD, "M02*", ""]).encode()))

    def test_noted(self):
        """What encloses nothing, and what hangs by a line that is run along twice; the place is on it."""
        rows = [
            ([(0, 0), (4000000, 0), (0, 0)], "2.000, 0.000"),
            ([(0, 0), (4, 0), (4, 4), (4, 0)], ""),
            ([(0, 0), (2000000, 0), (6000000, 0)], "1.000, 0.000"),
            ([*self.SQUARE[:2], (20, 0), *self.SQUARE[1:]], "0.000"),
            (
                [
                    (0, 0),
                    (10, 0),
                    (10, 5),
                    (20, 5),
                    (20, 0),
                    (30, 0),
                    (30, 10),
                    (20, 10),
                    (20, 5),
                    (10, 5),
                    (10, 10),
                    (0, 10),
                ],
                "0.000",
            ),
            ([(0, 0), (10, 0), (20, 0), (20, 5), (30, 5), (30, 0), (20, 0), (10, 0), (10, 10), (0, 10)], "0.000"),
            ([(0, 0), (10, 0), (30, 0), (30, 5), (20, 5), (20, 0), (10, 0), (10, 10), (0, 10)], "0.000"),
        ]
        for corners, place in rows:
            with self.subTest(corners=corners):
                self.assertTrue(told(corners).startswith(f"copper without width at {place}"), told(corners))
        self.assertIn(
            "command 8, line 8, and of 1 more contours",
            told([(0, 0), (4, 0), (0, 0)], self.SQUARE, [(0, 0), (4, 0), (0, 0)]),
        )

    def test_not_noted(self):
        """Cut-ins with copper on both sides, to holes and along them; contours that cross or touch themselves; arcs; large ones."""
        hole = [
            (0, 0),
            (90, 0),
            (90, 90),
            (0, 90),
            (0, 50),
            (30, 50),
            (30, 60),
            (60, 60),
            (60, 30),
            (30, 30),
            (30, 50),
            (0, 50),
        ]
        two = [
            (0, 0),
            (90, 0),
            (90, 90),
            (0, 90),
            (0, 50),
            (20, 50),
            (20, 60),
            (30, 60),
            (30, 50),
            (60, 50),
            (60, 60),
            (70, 60),
            (70, 40),
            (60, 40),
            (60, 50),
            (30, 50),
            (30, 40),
            (20, 40),
            (20, 50),
            (0, 50),
        ]
        for corners in (
            self.SQUARE,
            hole,
            two,
            [(0, 0), (10, 10), (10, 0), (0, 10)],
            [(0, 0), (10, 0), (5, 5), (10, 10), (0, 10), (5, 5)],
            [*self.SQUARE, *self.SQUARE[:1]],
        ):
            with self.subTest(corners=corners):
                self.assertEqual(told(corners), "")
        self.assertEqual(
            told_of(
                "\n".join(
                    [*HEAD, "G75*", "G36*", "X0Y0D02*", "G03X4Y0I2J0D01*", "G02X0Y0I-2J0D01*", "G37*", "M02*", ""]
                ).encode()
            ),
            "",
        )


class Notes(made.Case):
    def test_a_note(self):
        """It is a note alone: the answer stays; of drawn planes with cut-ins there is none."""
        bridge = [*flash(10, (0, 0), (9, 0)), *made.region((0, 0), (9, 0), (0, 0))]
        self.board(
            {
                "m.json": manifest(),
                "top.gbr": bridge,
                "n.ipc": netlist(record("A", "J1.1", 0, 0), record("A", "J1.2", 9, 0)),
            }
        )
        status, out, _ = self.show("board")
        self.assertEqual(
            (
                status,
                out.startswith("PASS board: "),
                "top.gbr: copper without width at 4.500, 0.000 mm, command 14, line 14" in out,
            ),
            (0, True, True),
            out,
        )
        plane = [
            *flash(10, (0, 0)),
            *made.region(
                (-1, -1), (9, -1), (9, 9), (-1, 9), (-1, 5), (3, 5), (3, 6), (6, 6), (6, 3), (3, 3), (3, 5), (-1, 5)
            ),
        ]
        self.board(
            {
                "m.json": manifest(),
                "top.gbr": plane,
                "n.ipc": netlist(record("A", "J1.1", 0, 0), record("A", "J1.2", 8, 0)),
            }
        )
        self.assertNotIn("without width", self.show("board")[1])


if __name__ == "__main__":
    unittest.main()
