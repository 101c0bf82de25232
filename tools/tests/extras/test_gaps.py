"""Nets that are too close: pairs, distances and places, over the stand-in and over the built program."""
import json
import random
import unittest
from fractions import Fraction as Q
from math import isqrt
from xml.dom import minidom

from boardnet_show.extras import spacing
from boardnet_show.extras.spacing import asked_distance
from boardnet_show.geometry.box_tree import Tree
from boardnet_show.geometry.distances import from_line, of_lines
from boardnet_show.geometry.segments import box_of_line
from tests.fixtures import made
from tests.fixtures.common import SURE
from tests.fixtures.made import draw, flash, gerber, manifest, netlist, record, region

# Discs of 1 mm at 0 and 1.3: 0.3 mm apart; a square of 1 mm at (0, 1.25): 0.25 mm above the first disc.
CLOSE = {
    "m.json": manifest(),
    "top.gbr": gerber(*flash(10, (0, 0), (1.3, 0)), *flash(12, (0, 1.25))),
    "n.ipc": netlist(record("A", "J1.1", 0, 0), record("B", "J1.2", 1.3, 0)),
}
# A disc of 1 mm and a track of 0.2 mm that runs by at 45 degrees, sqrt(2) - 0.6 = 0.81421.. mm away.
SLANTED = {
    **CLOSE,
    "top.gbr": gerber(*flash(10, (0, 0)), *draw(11, (0, 2), (2, 0))),
    "n.ipc": netlist(record("A", "J1.1", 0, 0), record("B", "J1.2", 1, 1)),
}
# An L of copper and a disc in its corner: 0.5 mm from its upright arm, 0.6 mm from the other.
CORNER = {
    **SLANTED,
    "top.gbr": gerber(*region((0, 0), (5, 0), (5, 1), (1, 1), (1, 5), (0, 5)), *flash(10, (2, 2.1))),
    "n.ipc": netlist(record("A", "J1.1", 0, 0), record("B", "J1.2", 2, 2.1)),
}
ROWS = [
    # board, distance asked, (nets, distance in mm, x, y, layer) of each gap
    (CLOSE, "0.3", [([0, 2], 0.25, 0.0, 0.625, 1)]),
    (CLOSE, "0.3000001", [([0, 1], 0.3, 0.65, 0.0, 1), ([0, 2], 0.25, 0.0, 0.625, 1)]),
    (CLOSE, "0.25", []),
    (SLANTED, "0.82", [([0, 1], 0.8142, 0.6414, 0.6414, 1)]),
    (SLANTED, "0.8142", []),
    (CORNER, "0.5000001", [([0, 1], 0.5, 1.25, 2.1, 1)]),
    (CORNER, "0.5", []),
]


def arc(width):
    """An arc of 1 mm about the origin from the right to the left; of one of 0.0002 mm the lower board has nothing."""
    return [f"%ADD20C,{width}*%", "D20*", "G75*", "X1000000Y0D02*", "G03X-1000000Y0I-1000000J0D01*", "G01*"]


WIDE, THIN = arc("0.2"), arc("0.0002")


class Gaps(made.Case):
    def gaps(self, files, mm, *words, **more):
        self.board(files)
        status, out, _ = self.show("board", "--gaps", mm, "--json", "-", *words, **more)
        return status, json.loads(out)["boards"][0]

    def test_rows(self):
        for program in self.over_both():
            for files, mm, wanted in ROWS:
                with self.subTest(mm=mm, program=program):
                    status, told = self.gaps(files, mm, program=program)
                    found = [it for it in told["findings"] if it["kind"] == "gap"]
                    self.assertEqual(
                        [
                            (
                                it["nets"],
                                it["gap"]["distance"],
                                round(it["gap"]["x"], 4),
                                round(it["gap"]["y"], 4),
                                it["gap"]["layer"],
                            )
                            for it in found
                        ],
                        wanted,
                    )
                    self.assertEqual((status, told["gaps"]), (int(bool(wanted)), len(wanted)))

    def test_words(self):
        self.board(CLOSE)
        status, out, _ = self.show("board", "--gaps", "0.3")
        self.assertEqual(status, 1)
        self.assertTrue(
            out.startswith(
                f"FAIL board: 1 gap under 0.300 mm; copper and the netlist agree at all 2 test points. Of the netlist certain{SURE[7:]}\ngaps: two nets on a layer whose copper is closer than 0.300 mm; exactly that is no "
                "gap here. The program's `gaps` lists what is at most that far apart: 2 pairs, of which 1 that are exactly so far\n"
            ),
            out,
        )
        self.assertIn(
            "\n  gap-0: A and net 2 (without a name) are 0.250 mm apart on the one layer (top.gbr) at 0.000, 0.625 mm: top.gbr command 7 and "
            "top.gbr command 10; near J1 pin 1.\n",
            out,
        )

    def test_layers_and_forms(self):
        """A pair is told once for each layer on which it is close; all forms have it as a finding of its own kind."""
        lines = flash(10, (0, 0), (1.3, 0))
        files = {
            "m.json": manifest(["top.gbr", "bot.gbr"], [("p.drl", 1, 2)]),
            "top.gbr": gerber(*lines),
            "bot.gbr": gerber(*lines),
            "p.drl": made.drill((0.0, 0.0), (1.3, 0.0)),
            "n.ipc": netlist(record("A", "J1.1", 0, 0, "00"), record("B", "J1.2", 1.3, 0, "00")),
        }
        self.board(files)
        status, out, notes = self.show(
            "board",
            "--gaps",
            "0.4",
            "--junit",
            "j.xml",
            "--rdb",
            "r.xml",
            "--page",
            "p.html",
            "--svg",
            "s.svg",
            "--at",
            "gap-1",
            "-q",
        )
        self.assertEqual((status, notes), (1, ""))
        self.assertEqual([line.split(" ")[1] for line in out.splitlines()[1:3]], ["gap-0:", "gap-1:"])
        cases = minidom.parse(self.path("j.xml")).getElementsByTagName("testcase")
        self.assertEqual(
            [(it.getAttribute("name"), len(it.getElementsByTagName("failure"))) for it in cases],
            [("A", 0), ("B", 0), ("gaps between nets", 1)],
        )
        marked = minidom.parse(self.path("r.xml")).getElementsByTagName("item")
        self.assertEqual([it.getElementsByTagName("category")[0].firstChild.data for it in marked], ["gap", "gap"])
        page = self.read("p.html")
        self.assertIn("FAIL: 2 gaps under 0.400 mm; copper and the netlist agree at all ", page)
        self.assertIn('<li id="gap-1">', page)
        self.assertIn("<desc>A and B are 0.300 mm apart on bottom", self.read("s.svg"))

    def test_between_bounds(self):
        """An arc about a disc, 1 mm from it: certain under 1.01, none under 0.99, possible where it may be just under."""
        arc = ["G75*", *flash(10, (0, 0)), "D11*", "X1600000Y0D02*", "G03*", "X0Y1600000I-1600000J0D01*", "G01*"]
        for program in self.over_both():
            for mm, status, word in (("1.01", 1, "gap-0"), ("0.99", 0, None), ("1", 11, "undecided gap-0")):
                self.board(
                    {
                        **CLOSE,
                        "top.gbr": gerber(*arc),
                        "n.ipc": netlist(record("A", "J1.1", 0, 0), record("B", "J1.2", 1.6, 0)),
                    }
                )
                told, out, _ = self.show("board", "--gaps", mm, program=program)
                # The stand-in's `between` reads no arc, which is noted.
                lines = [
                    line.split(":")[0].strip()
                    for line in out.splitlines()
                    if not line.startswith("`between` was asked")
                ][2:]
                self.assertEqual((told, lines), (status, ["A and B", word] if word else []), out)

    JOINED_ROWS = [
        # copper, places of both points, distance, nets of each gap of the lower board, words of the first one
        # A pad that touches the arc above alone; nets that are joined below are none.
        (
            [*WIDE, *flash(10, (0, 1.6002))],
            [(1, 0), (0, 1.6002)],
            "0.0001",
            [[0, 1]],
            "A and B are joined, or at most ",
        ),
        ([*WIDE, *flash(10, (0, 1.59))], [(1, 0), (0, 1.59)], "1", [], ""),
        ([*WIDE, *flash(10, (0, 1.602))], [(1, 0), (0, 1.602)], "0.0005", [], ""),
        # Pads at both ends of an arc that is left out, 1 mm apart: each against the arc, and under that each other.
        (
            [*THIN, *flash(10, (1, 0), (-1, 0))],
            [(1, 0), (-1, 0)],
            "0.9",
            [[0], [1]],
            "A and copper that is not sure are joined, or apart, perhaps by nothing, on ",
        ),
        (
            [*THIN, *flash(10, (1, 0), (-1, 0))],
            [(1, 0), (-1, 0)],
            "1.1",
            [[0, 1], [0], [1]],
            "A and B are joined, or at most 1.0001 mm apart, on ",
        ),
        # A pad that the thin arc passes at 0.5 mm: another net on both.
        (
            [*THIN, *flash(10, (0, 2))],
            [(0, 2), (0, 2)],
            "0.51",
            [[0]],
            "A and copper that is not sure are at least 0.499",
        ),
        ([*THIN, *flash(10, (0, 2))], [(0, 2), (0, 2)], "0.49", [], ""),
    ]

    def test_joined_above(self):
        """What one net of the upper board holds may be several on the board, which come as close as may be."""
        for lines, (one, other), mm, wanted, words in self.JOINED_ROWS:
            with self.subTest(mm=mm, words=words):
                files = {
                    **CLOSE,
                    "top.gbr": gerber(*lines),
                    "n.ipc": netlist(record("A", "J1.1", *one), record("A" if one == other else "B", "J1.2", *other)),
                }
                _, told = self.gaps(files, mm, program=made.built() or made.STAND_IN)
                found = [it for it in told["findings"] if it["kind"] == "gap"]
                self.assertEqual(sorted(it["nets"] for it in found), sorted(wanted), found)
                self.assertEqual((told["gaps"], {it["sure"] for it in found}), (0, {False} if wanted else set()))
                self.assertTrue(not words or any(it["words"].startswith(words) for it in found), found)

    def test_possible_ones_in_other_forms(self):
        """Beside a certain gap a possible one is called undecided."""
        files = {
            **CLOSE,
            "top.gbr": gerber(*WIDE, *flash(10, (0, 1.6002), (9, 0), (10.00005, 0))),
            "n.ipc": netlist(record("A", "J1.1", 1, 0), record("B", "J1.2", 0, 1.6)),
        }
        self.board(files)
        status, _, _ = self.show(
            "board", "--gaps", "0.0001", "--junit", "j.xml", "--rdb", "r.xml", program=made.built() or made.STAND_IN
        )
        cases = minidom.parse(self.path("j.xml")).getElementsByTagName("failure")
        self.assertEqual((status, cases[-1].getAttribute("message")), (1, "gap-0, undecided gap-1"))
        marked = [it.firstChild.data for it in minidom.parse(self.path("r.xml")).getElementsByTagName("comment")]
        self.assertEqual([name for name in marked if "gap" in name], ["gap-0", "undecided gap-1"])

    def test_words_of_the_distance(self):
        for text, u in (
            ("0.1", 1_000_000),
            ("10", 100_000_000),
            (".0000001", 1),
            ("10.0000001", None),
            ("0", None),
            ("-1", None),
            ("1e3", None),
            ("", None),
            ("1.12345678", None),
        ):
            self.assertEqual(asked_distance(text), u, text)
        for text, u in (
            ("6mil", 1_524_000),
            ("0.006in", 1_524_000),
            ("0.15mm", 1_500_000),
            ("150mil", 38_100_000),
            ("0.00001mil", None),
            ("6 mil", None),
            ("mil", None),
            ("6cm", None),
            ("1in", None),
        ):
            self.assertEqual(asked_distance(text), u, text)
        self.assertEqual(self.show("board", "--gaps", "0,1")[0], 2)

    def test_not_known(self):
        self.board(CLOSE)
        status, out, _ = self.show("board", "--gaps", "0.1", STAND_IN_LACKS="gaps")
        self.assertEqual(status, 12)
        self.assertIn("INCOMPLETE board: gaps are not known: `gaps` says: words not understood; ", out)


class Distances(unittest.TestCase):
    def test_against_fractions(self):
        """Rounded down, against the least distance that fractions give."""
        draws = random.Random(5)
        spot = lambda: (draws.randrange(-40, 40), draws.randrange(-40, 40))
        for _ in range(2_000):
            a, b, c = spot(), spot(), spot()
            d, e = (b[0] - a[0], b[1] - a[1]), (c[0] - a[0], c[1] - a[1])
            length = d[0] ** 2 + d[1] ** 2
            t = min(Q(1), max(Q(0), Q(d[0] * e[0] + d[1] * e[1], length))) if length else Q(0)
            squared = (a[0] + t * d[0] - c[0]) ** 2 + (a[1] + t * d[1] - c[1]) ** 2
            self.assertEqual(from_line(c, a, b), isqrt(squared.numerator // squared.denominator))

    def test_nearest_of_many(self):
        """By trees, against all pairs, also where it is said how far they are apart at most."""
        draws, apart = random.Random(8), 0
        spot = lambda wide: (draws.randrange(wide), draws.randrange(wide))
        for count, others in ((1, 90), (3, 400), (16, 17), (70, 70), (300, 90)):
            for by in (0, 150, 400):
                rows = []
                for number, shift in ((count, 0), (others, by)):
                    ends = [((x + shift, y), spot(12)) for x, y in (spot(300) for _ in range(number))]
                    lines = [((x, y), (x + dx, y + dy)) for (x, y), (dx, dy) in ends]
                    rows.append([(line, draws.randrange(3), k) for k, line in enumerate(lines)])
                trees = [Tree([box_of_line(*line, r) for line, r, _ in its]) for its in rows]
                least = min(spacing.measured(a, b) for a in rows[0] for b in rows[1])
                found = spacing.by_trees(*trees, *rows, None)
                self.assertEqual(spacing.measured(*found[1:]), found[0])
                self.assertEqual(max(found[0], 0), max(least, 0))
                if least > 0:
                    apart += 1
                    self.assertEqual(spacing.by_trees(*trees, *rows, least)[0], least)
        self.assertGreater(apart, 4)

    def test_lines(self):
        for first, second, wanted in [
            (((0, 0), (10, 10)), ((0, 10), (10, 0)), 0),
            (((0, 0), (10, 0)), ((10, 0), (20, 5)), 0),
            (((0, 0), (10, 0)), ((12, 0), (20, 0)), 2),
            (((0, 0), (0, 0)), ((3, 4), (3, 4)), 5),
            (((0, 0), (10, 0)), ((5, 7), (5, 3)), 3),
        ]:
            self.assertEqual((of_lines(first, second), of_lines(second, first)), (wanted, wanted))
