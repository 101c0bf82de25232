"""Joins that are narrower than a width, over the stand-in and over the built program."""
import json
import random

from tests.extras.as_made.raster import CELL, Raster, cell_of
from tests.fixtures import made
from tests.fixtures.made import draw, flash, gerber, manifest, netlist, record, region

ENDS = netlist(record("A", "J1.1", 0, 0), record("A", "J1.2", 10, 0))
PADS = flash(10, (0, 0), (10, 0))
TRACK = [*PADS, *draw(11, (0, 0), (10, 0))]
# Two discs of 1 mm that touch in one place, and a track that ends where a square begins.
POINT = [*flash(10, (0, 0), (1, 0)), *draw(10, (1, 0), (10, 0))]
LINE = [*flash(10, (0, 0)), *region((0.5, -0.5), (10.5, -0.5), (10.5, 0.5), (0.5, 0.5))]
# Two squares of 2 mm that share a strip of 0.3 mm, and two contours that abut along an edge of 0.3 mm.
STRIP = [*region((-1, -1), (5, -1), (5, 1), (-1, 1)), *region((4.7, -1), (11, -1), (11, 1), (4.7, 1))]
ABUT = [
    *region((-1, -1), (5, -1), (5, 0.15), (5, -0.15), (5, 1), (-1, 1)),
    *region((5, -0.15), (11, -1), (11, 1), (5, 0.15)),
]
# An hourglass of one contour, 0.4 mm wide at its waist.
WAIST = region((-1, -1), (5, -0.2), (11, -1), (11, 1), (5, 0.2), (-1, 1))
# Both halves of it, which abut along an edge across its waist, and it with a hole that a line run along twice joins.
HALVES = [*region((-1, -1), (5, -0.2), (5, 0.2), (-1, 1)), *region((5, -0.2), (11, -1), (11, 1), (5, 0.2))]
SLIT = region(
    *[(-1, -1), (5, -0.2), (11, -1), (11, 1), (5, 0.2), (-1, 1), (-1, 0.9), (1, 0.7), (1.2, 0.6)],
    *[(1, 0.6), (1, 0.7), (-1, 0.9)],
)


class Necks(made.Case):
    def found(self, copper, *words, program=made.STAND_IN, netlist_text=ENDS):
        self.board({"m.json": manifest(), "top.gbr": gerber(*copper), "n.ipc": netlist_text})
        status, out, _ = self.show("board", "--json", "-", *words, program=program)
        told = json.loads(out)["boards"][0]
        return status, [(it["id"], it.get("sure")) for it in told["findings"]], told

    ROWS = [
        # copper, width, status, findings
        (TRACK, "0.2", 0, []),
        (TRACK, "0.1", 0, []),
        (TRACK, "0.2001", 1, [("neck-0", True)]),
        (TRACK, "0.9", 1, [("neck-0", True)]),
        (WAIST, "0.39", 0, []),
        (WAIST, "0.41", 1, [("neck-0", True)]),
        ([*WAIST, *WAIST], "0.41", 1, [("neck-0", True)]),
        (HALVES, "0.39", 0, []),
        (HALVES, "0.41", 1, [("neck-0", True)]),
        (SLIT, "0.39", 0, []),
        (STRIP, "0.29", 0, []),
        (STRIP, "0.31", 11, [("neck-0", False)]),
        (POINT, "0", 1, [("neck-0", True)]),
        (LINE, "0", 1, [("neck-0", True)]),
        (TRACK, "0", 0, []),
    ]

    def test_rows(self):
        for program in self.over_both():
            for copper, width, status, wanted in self.ROWS:
                with self.subTest(width=width, wanted=wanted, program=program, copper=copper[0]):
                    self.assertEqual(self.found(copper, "--necks", width, program=program)[:2], (status, wanted))

    def test_words(self):
        _, _, told = self.found(WAIST, "--necks", "0.41")
        self.assertTrue(told["line"].endswith("; 1 neck under 0.410 mm"), told["line"])
        words = told["findings"][0]["words"]
        self.assertTrue(
            words.startswith(
                "A is less than 0.410 mm wide between J1 pin 1 (the one layer, 0.000, 0.000 mm) and J1 pin 2 "
                "(the one layer, 10.000, 0.000 mm), near the one layer (top.gbr) at 5.000, "
            ),
            words,
        )

    def test_without_the_option(self):
        """Joins of no width are noted."""
        for copper, wanted in ((POINT, True), (LINE, True), (TRACK, False), (WAIST, False), (STRIP, False)):
            status, found, told = self.found(copper)
            self.assertEqual((status, found), (0, []))
            self.assertEqual(any("a join of no width" in words for words in told["notes"]), wanted, copper)

    def test_what_is_asked_for(self):
        for width, status in (("-1", 2), ("11", 2), ("0.1.2", 2), ("0", 0)):
            self.board({"m.json": manifest(), "top.gbr": gerber(*TRACK), "n.ipc": ENDS})
            self.assertEqual(self.show("board", "--necks", width)[0], status, width)


class Random(made.Case):
    def test_against_a_raster(self):
        """Where copper wider or slimmer by two cells gives one answer, a neck is told for certain or not at all; what is not told is none."""
        draws, decided = random.Random(3), 0
        for _ in range(16):
            spots = [(draws.randrange(1, 8), draws.randrange(1, 8)) for _ in range(3)]
            wide, half = draws.choice((0.3, 0.5, 0.8)), draws.choice((0.2, 0.4, 0.6))
            tracks = [(a, b, wide) for a, b in zip(spots, spots[1:])] + [(a, a, 1.0) for a in spots]
            copper = ["%ADD20C,2.0*%", f"%ADD21C,{2 * wide:.1f}*%", *draw(21, *spots), *flash(20, *spots)]
            points = netlist(*(record("A", f"J1.{k}", *spot) for k, spot in enumerate(dict.fromkeys(spots), 1)))
            self.board({"m.json": manifest(), "top.gbr": gerber(*copper), "n.ipc": points})
            status, _, _ = self.show("board", "--necks", f"{2 * half:.1f}")
            answers = set()
            for slack in (-2 * CELL, 2 * CELL):
                nets = Raster(tracks, [], slack, half).nets(9)
                its = [nets.get(cell_of(spot)) for spot in spots]
                answers.add(int(None in its or len(set(its)) > 1))
            if len(answers) == 1:
                decided += 1
                self.assertIn(status, {11, *answers} if answers == {0} else answers, (spots, wide, half))
        self.assertGreater(decided, 8)
