"""The netlist for a tester, and a board against another one, over the stand-in and over the built program."""
import json
import os
import re
import types
import unittest
from xml.dom import minidom

from boardnet_show.base.progress import Progress
from boardnet_show.formats import ipc356
from boardnet_show.formats.gerber_objects import objects_of
from boardnet_show.intake import package
from boardnet_show.intake.mends import netlist_mends, table
from boardnet_show.judging import judged
from boardnet_show.judging.program import Program
from boardnet_show.netlists import tester, tester_records
from boardnet_show.output.sentences import testers
from tests.fixtures import common, made
from tests.fixtures.made import draw, drill, flash, gerber, label, manifest, netlist, record, region

FOUR = ["t.gbr", "i.gbr", "j.gbr", "b.gbr"]
SPANS = [("through.drl", 1, 4), ("blind.drl", 1, 2), ("below.drl", 3, 4), ("buried.drl", 2, 3)]
# Records by the columns of the standard: code, name, part, pin, mid-point, hole and plating, access, place, size.
HOLES = {
    "m.json": manifest(FOUR, SPANS),
    "i.gbr": gerber(*flash(10, (22, 0))),
    "j.gbr": gerber(),
    "t.gbr": gerber(
        "%TA.AperFunction,ViaPad*%",
        "%ADD20C,0.6*%",
        "%TD*%",
        "%TO.P,J1,2*%",
        *flash(12, (20, 0)),
        "%TD*%",
        *flash(20, (22, 0)),
    ),
    "b.gbr": gerber(*flash(10, (20, 0), (24, 0)), *draw(11, (0, 5), (1, 5))),
    "through.drl": drill((20.0, 0.0)),
    "blind.drl": drill((22.0, 0.0)),
    "below.drl": drill((24.0, 0.0), size="0.3"),
    "buried.drl": drill((26.0, 0.0)),
    "n.ipc": netlist(record("X", "J1.1", 20, 0, "00")),
}
HOLE_RECORDS = [
    "317X                J1    -2    D0400PA00X+020000Y+000000X1000Y1000R000",
    "307NET1             VIA        MD0400PA01X+022000Y+000000X0600Y0000R000",
    f"027{'':35}L01L02",
    "307NET2                         D0300PA04X+024000Y+000000X1000Y0000R000",
    f"027{'':35}L03L04",
    "307NET4                         D0400PA02X+026000Y+000000X0400Y0000R000",
    f"027{'':35}L02L03",
]
PADS = {
    "m.json": manifest(),
    "n.ipc": netlist(record("GND", "C1.1", 0, 0), record("GND", "C1.2", 6, 0)),
    "top.gbr": gerber(
        "%ADD21O,1.2X0.6*%",
        "%ADD22R,0.4X0.4*%",
        "%TA.AperFunction,NonConductor*%",
        "%ADD23C,0.5*%",
        "%TD*%",
        *flash(10, (0.000123, 0)),
        "%TO.P,U1,12345*%",
        *label("a_name_that_is_too_long"),
        *flash(21, (3.000456, -1.2341)),
        "%TD*%",
        *flash(12, (6, 0)),
        *label("NET5"),
        *flash(22, (9, 0)),
        "%TD*%",
        "%TO.P,U2,7*%",
        *region((12, 0), (15, 0), (15, 0.5), (12.5, 0.5), (12.5, 3), (12, 3)),
        "%TD*%",
        *flash(23, (20, 0)),
        *region((30, 0), (31, 0), (31, 1)),
    ),
}
PAD_RECORDS = [
    "327NET0             C1    -1          A01X+000000Y+000000X1000Y0000R000",
    "C PIN,U1,12345",
    "327NNAME1           U1    -1234       A01X+003000Y-001234X1200Y0600R000",
    "327NET2             C1    -2          A01X+006000Y+000000X1000Y1000R000",
    "327NET5                               A01X+009000Y+000000X0400Y0400R000",
    "C the next record is 1.",
    "327NET4             U2    -7          A01X",
    "C net without a record: NET5_ (top.gbr command 36)",
    "C net without a record: NET6 (top.gbr command 42)",
]
RING = [
    "%AMRING*",
    "20,1,0.4,-1,-0.8,1,-0.8,0*",
    "20,1,0.4,-1,0.8,1,0.8,0*",
    "20,1,0.4,-0.8,-1,-0.8,1,0*",
    "20,1,0.4,0.8,-1,0.8,1,0*%",
    "%ADD20RING*%",
]
SPREAD = [(0, 0), (3, 1), (7, 2), (1, 5), (6, 6), (9, 4), (12, 8), (4, 9), (11, 1), (2, 11)]


def body(text):
    """The lines of a netlist behind its head."""
    return [line for line in text.split("\n") if not line.startswith(("P ", "C boardnet", "999")) and line]


class Netlists(made.Case):
    def made(self, files, program=made.STAND_IN, **more):
        self.board(files)
        status, out, _ = self.show("board", "--ipc", "o.ipc", program=program, **more)
        return status, out, self.read("o.ipc") if os.path.exists(self.path("o.ipc")) else None

    def test_holes(self):
        for program in self.over_both():
            status, out, text = self.made(HOLES, program)
            self.assertEqual((status, body(text)[:7], len(body(text))), (0, HOLE_RECORDS, 8))
            self.assertIn("1 record of buried holes, which no prober reaches: NET4 at 26.000, 0.000 mm\n", out)
            self.assertIn("1 net with mid-points (vias) alone, and no pad: NET1 (t.gbr command 14)\n", out)
            self.assertIn("1 net without a record: NET3 (b.gbr command 11)\n", out)
            self.assertIn("`check` with it says: agrees (audit true)", out)

    def test_pads(self):
        for program in self.over_both():
            status, out, text = self.made(PADS, program)
            self.assertEqual(status, 1)  # GND is on two nets
            self.assertEqual([line[: len(want)] for line, want in zip(body(text), PAD_RECORDS)], PAD_RECORDS)
            self.assertIn("\nP  NNAME1  a_name_that_is_too_long\n", text)
            self.assertIn("2 places rounded to that grid within their pads, by at most 0.00047 mm\n", out)
            self.assertIn("1 name of several nets, which are called NET<n>: GND\n", out)

    def test_both_ends_of_a_via(self):
        """The span of a via stands behind its record: what is read of it is a point at either end."""
        _, _, text = self.made(HOLES)
        data, mends = netlist_mends.mended(text.encode(), 4)
        found = [(it.access, it.x) for it in ipc356.places(data) if it.is_through]
        self.assertEqual(
            found, [(0, 20_000), (1, 22_000), (2, 22_000), (4, 24_000), (3, 24_000), (2, 26_000), (3, 26_000)]
        )
        self.assertEqual({it.kind for it in mends}, {table.VIA, table.CONTINUED})

    def test_masks(self):
        """The code of the netlist's records on a pad; none where they differ, or have none."""
        points = [
            record("A", "J1.1", 0, 0) + "X1000Y1000R000S1",
            record("B", "", 5, 0) + "X1000Y1000R000 S3      ",
            record("C", "J1.2", 9, 0) + "X1000Y1000R000 S2",
            record("C", "J1.2", 9, 0.1) + "X1000Y1000R000 S1",
            record("D", "J1.3", 12, 0) + "X1000Y1000R000 S4",
        ]
        status, out, text = self.made(
            {
                "m.json": manifest(),
                "top.gbr": gerber(*flash(10, (0, 0), (5, 0), (9, 0), (12, 0))),
                "n.ipc": netlist(*points),
            }
        )
        self.assertEqual(
            (status, [line[57:] for line in body(text)]),
            (0, [f"X1000Y0000R000{mask}" for mask in (" S1", " S3", "", "")]),
        )
        self.assertIn("1 record without a mask code, since the netlist has several: J1 pin 2\n", out)
        self.assertIn("\nP  JOB   board\n", text)

    def test_unplated_holes(self):
        """Of tools that say so, and of a file that was left out because it does; slots are counted."""
        top, through = "%TF.FileFunction,Copper,L1,Top*%", "; #@! TF.FileFunction,{},1,1,{}"
        own = "; #@! TA.AperFunction,{},ComponentDrill"
        mixed = "\n".join(
            [
                "M48",
                through.format("MixedPlating", "Drill"),
                "METRIC",
                own.format("Plated"),
                "T1C0.4",
                own.format("NonPlated"),
                "T2C3.2",
                "%",
                "T1",
                "X0.0Y0.0",
                "T2",
                "X50.0Y-2.0005",
                "X1.0Y1.0G85X2.0Y1.0",
                "M30",
                "",
            ]
        )
        alone = "\n".join(
            ["M48", through.format("NonPlated", "NPTH"), "INCH", "T1C0.125", "%", "T1", "X1.0Y0.0", "M30", ""]
        )
        files = {
            "top.gbr": gerber(top, *flash(10, (0, 0), (9, 0))),
            "p.drl": mixed,
            "n.drl": alone,
            "n.ipc": netlist(record("A", "J1.1", 0, 0), record("B", "J1.2", 9, 0)),
        }
        status, out, text = self.made(files)
        self.assertEqual(
            (status, [line for line in body(text) if line.startswith("367")]),
            (
                0,
                [
                    f"367N/C{'':11}{'':15}D3200UA00X+050000Y-002000X3200Y0000R000",
                    f"367N/C{'':11}{'':15}D3175UA00X+025400Y+000000X3175Y0000R000",
                ],
            ),
            out,
        )
        self.assertIn("2 records (367) of unplated holes; 1 unplated slot without one\n", out)
        status, out, text = self.made({**files, "n.drl": alone.replace("X1.0", "X10000")})
        self.assertEqual(text.count("\n367"), 1)
        self.assertIn("1 file of unplated holes not read: n.drl\n", out)

    def test_adjacent_nets(self):
        """Nets that --gaps finds close to each other, each pair once, four to a line."""
        at = [(0, 0), (1.1, 0), (2.2, 0), (0, 1.1), (9, 9)]
        rows = [
            record(name, f"J1.{k}", *place) for k, (name, place) in enumerate(zip(("A", "NNAME1", "C", "D", "E"), at))
        ]
        self.board(
            {
                "m.json": manifest(),
                "top.gbr": gerber(*flash(10, *at)),
                "n.ipc": "P  NNAME1  a_long_net_name\n" + netlist(*rows),
            }
        )
        for words, wanted in (
            (("--gaps", "0.2"), ["379A              NNAME1         D", "379NNAME1         C"]),
            (("--gaps", "0.05"), []),
            ((), []),
        ):
            _, out, _ = self.show("board", "--ipc", "o.ipc", *words)
            self.assertEqual([line for line in self.read("o.ipc").split("\n") if line[:3] == "379"], wanted, out)
            self.assertEqual("3 pairs of nets that are close to each other (379)" in out, bool(wanted))
        lines = list(ipc356.adjacent_lines("A", list("BCDEF")))
        self.assertEqual([line.split() for line in lines], [["379A", "B", "C", "D", "E"], ["079", "F"]])
        self.assertTrue(all(len(line) <= 80 for line in ipc356.adjacent_lines("x" * 14, ["y" * 14] * 9)))

    def test_units(self):
        """The unit is that which has a place in every pad; where none has, the pads without are told."""
        sliver, inch, milli = "%ADD20R,0.0004X0.0004*%", (0.00254, 0.0), (1.003, 0.0)
        rows = [
            ([inch, (0.0, 0.0)], "0.0001 inch", []),
            ([milli, (0.0, 0.0)], "0.001 mm", []),
            ([inch, milli], "0.0001 inch", ["1 pad without a place on the grid"]),
        ]
        for places, unit, more in rows:
            with self.subTest(places=places):
                _, out, text = self.made(
                    {
                        "m.json": manifest(),
                        "top.gbr": gerber(sliver, *flash(20, *places)),
                        "n.ipc": netlist(record("A", "J.1", 5, 5)),
                    }
                )
                self.assertIn(f"in units of {unit}; `check` with it says: agrees", out)
                self.assertEqual([words for words in ("1 pad without a place on the grid",) if words in out], more)
                self.assertEqual(len(body(text)), 2)

    def test_sizes(self):
        """A size is never 0, which would stand for a round pad, and is told where its columns do not hold it."""
        text = gerber("%ADD20R,3X0.0004*%", "%ADD21R,12X11*%", *flash(20, (0, 0)), *flash(21, (20, 0)))
        status, out, text = self.made(
            {
                "m.json": manifest(),
                "top.gbr": text,
                "n.ipc": netlist(record("A", "J1.1", 0, 0), record("B", "J1.2", 20, 0)),
            }
        )
        self.assertEqual((status, [line[57:] for line in body(text)]), (0, ["X3000Y0001R000", "X9999Y9999R000"]))
        self.assertIn("  1 record with a size of 9999, the most that its columns hold: J1 pin 2\n", out)

    def test_pads_at_one_place(self):
        """Pins on both sides of a hole have a record each, the hole the size of the largest pad; a pad without a pin has none where one with it is."""
        files = {
            "m.json": manifest(["t.gbr", "b.gbr"], [("p.drl", 1, 2)]),
            "p.drl": drill((0.0, 0.0)),
            "t.gbr": gerber(
                "%TO.P,U1,1*%",
                *flash(12, (0, 0)),
                *flash(11, (0, 0)),
                "%TD*%",
                *flash(10, (5, 0)),
                "%TO.P,U3,1*%",
                *flash(12, (5, 0)),
            ),
            "b.gbr": gerber("%TO.P,U2,7*%", *flash(10, (0, 0))),
            "n.ipc": netlist(record("A", "", 0, 0, "00"), record("B", "", 5, 0)),
        }
        status, _, text = self.made(files)
        self.assertEqual(
            (status, body(text)),
            (
                0,
                [
                    "317A                U1    -1    D0400PA00X+000000Y+000000X1000Y1000R000",
                    "327B                U3    -1          A01X+005000Y+000000X1000Y1000R000",
                    "327A                U2    -7          A02X+000000Y+000000X1000Y0000R000",
                ],
            ),
        )

    def test_aliases(self):
        """Each is NNAME and a number that no net is called; other characters than ASCII stay apart."""
        names = ["NNAME2", "\u00e9 a name", "\u00e8 a name", "x" * 15]
        lines = [line for k, name in enumerate(names) for line in (*label(name), *flash(10, (3 * k, 0)))]
        _, _, text = self.made(
            {
                "m.json": manifest(),
                "top.gbr": gerber(*lines).encode(),
                "n.ipc": netlist(record("A", "", 90, 0), record("B", "", 91, 0)),
            }
        )
        told = dict(line[3:].split("  ", 1) for line in text.split("\n") if line.startswith("P  NNAME"))
        self.assertEqual(
            told, {"NNAME1": "NNAME2", "NNAME3": "\\u00E9 a name", "NNAME4": "\\u00E8 a name", "NNAME5": "x" * 15}
        )
        self.assertEqual([line[3:17].strip() for line in body(text)], list(told))

    def test_macro_with_a_hole(self):
        """A flash of a macro is one pad; its record is where it has copper."""
        program = made.built()
        if not program:
            raise unittest.SkipTest("there is no built program")
        files = {
            "m.json": manifest(),
            "top.gbr": gerber(*RING, "%TO.P,U1,1*%", *flash(20, (10, 0)), *flash(11, (10, 0))),
            "n.ipc": netlist(record("A", "U1.1", 10, 0.8), record("B", "", 10, 0)),
        }
        status, out, text = self.made(files, program)
        self.assertEqual((status, len(body(text))), (0, 3))
        found = re.match(r"327A {13}   U1    -1          A01X\+(\d{6})Y([+-]\d{6})X2000Y2000R000$", body(text)[1])
        self.assertTrue(600 <= max(abs(int(found[1]) - 10_000), abs(int(found[2]))) <= 1_000, body(text)[1])
        self.assertIn("U1 pin 1 by ", out)

    def test_blocks(self):
        """Each pad of a block's flash has its record: turned, mirrored and sized, in a block of a block, and in each copy."""
        program = made.built()
        if not program:
            raise unittest.SkipTest("there is no built program")
        pads = [
            "%ADD20R,0.6X0.4*%",
            "%TO.P,U1,1*%",
            *flash(20, (0, 0)),
            "%TO.P,U1,2*%",
            *flash(10, (3, 1)),
            "%TD*%",
            *draw(11, (3, 1), (5, 1)),
        ]
        changed = [
            "%ABD13*%",
            *pads,
            "%AB*%",
            *flash(13, (10, 0)),
            "%LR90*%",
            *flash(13, (20, 0)),
            "%LMX*%",
            *flash(13, (30, 0)),
            "%LS2*%",
            *flash(13, (40, 0)),
        ]
        nested = [
            "%ABD13*%",
            "%ABD14*%",
            *pads,
            "%AB*%",
            "%LR90*%",
            *flash(14, (0, 0)),
            "%LR0*%",
            "%SRX2Y1I8.0J0*%",
            *flash(14, (5, 0)),
            "%SR*%",
            "%AB*%",
            "%SRX1Y2I0J20.0*%",
            *flash(13, (50, 0)),
            "%SR*%",
        ]
        for lines, spots in (
            (changed, [(10, 0), (13, 1), (20, 0), (19, 3), (30, 0), (29, -3), (40, 0), (38, -6)]),
            (
                nested,
                [(50 + x, y + up) for up in (0, 20) for x, y in ((0, 0), (-1, 3), (5, 0), (8, 1), (13, 0), (16, 1))],
            ),
        ):
            files = {
                "m.json": manifest(),
                "top.gbr": gerber(*lines),
                "n.ipc": netlist(record("A", "J1.1", *spots[0]), record("B", "J1.2", *spots[1])),
            }
            status, out, text = self.made(files, program)
            found = [
                (line[20:31].split(), int(line[42:49]), int(line[50:57]))
                for line in body(text)
                if line.startswith("327")
            ]
            self.assertEqual(([it[1:] for it in found], status), ([(1000 * x, 1000 * y) for x, y in spots], 0), out)
            self.assertEqual([it[0] for it in found][2:], [["U1", "-1"], ["U1", "-2"]] * (len(spots) // 2 - 1))
            self.assertIn("`check` with it says: agrees (audit true)", out)

    def test_examples(self):
        """The netlist of each example agrees with it, also where its own netlist does not."""
        program = made.built()
        for name in common.examples() if program else ():
            with self.subTest(name=name):
                self.example(name, name)
                self.show(name, "--ipc", f"{name}.ipc", program=program)
                its = package.opened(self.path(name), types.SimpleNamespace(), self.path("files", name))
                data = netlist_mends.mended(self.read(f"{name}.ipc").encode(), its.manifest.layers)[0]
                self.write(f"{name}/{its.manifest.netlist}", data)
                status, _, notes = self.run_words([program, "check", "m.json"], self.path(name))
                self.assertEqual((status, notes), (0, "boardnet: agrees\n"))

    def test_nothing_is_left_unconfirmed(self):
        self.board(PADS)
        told = judged.judge(
            Program(made.STAND_IN, Progress(quiet=True)),
            package.opened(self.path("board"), types.SimpleNamespace(), self.path("files")),
        )
        text = tester_records.Netlist.netlist_text
        try:
            tester_records.Netlist.netlist_text = lambda its, **how: text(its, **how).replace("NET2", "NET0")
            found = tester.made(Program(made.STAND_IN, Progress(quiet=True)), told, "board")
        finally:
            tester_records.Netlist.netlist_text = text
        self.assertIsNone(found.text)
        self.assertIn(
            "no netlist for a tester is written: `check` with it says: differs, opens 1, shorts 0, missing 0",
            testers.lines(found)[0],
        )
        status, out, none = self.made({**PADS, "top.gbr": "M02*\n%LPC*%\n"})
        self.assertEqual((status, none), (3, None))
        self.assertIn("netlist for a tester: no netlist for a tester: ", out)

    def test_objects(self):
        """Each piece has its object: copies of a block, primitives of a macro that have an image, contours of a region."""
        text = gerber(
            *RING[:2],
            "20,1,0,0,0,1,1,0*",
            "1,1,$1,0,0*%",
            "%ADD20RING,0.5*%",
            "%ADD21RING,0*%",
            "%SRX2Y2I1.0J5.0*%",
            "%TO.N,A*%",
            *flash(20, (0, 0)),
            "%SR*%",
            *flash(21, (0, 0)),
            "%TD.N*%",
            "G36*",
            *draw(10, (0, 0), (1, 0), (0, 1), (0, 0))[1:],
            *draw(10, (5, 0), (6, 0), (5, 1), (5, 0))[1:],
            "G37*",
        )
        found = [(it.kind, it.copy, it.pieces, it.net, it.region) for it in objects_of(text.encode())]
        self.assertEqual(
            found,
            [("flash", k, 2, "A", 0) for k in range(4)] + [("flash", 0, 1, "A", 0)] + [("contour", 0, 1, "", 1)] * 2,
        )
        self.assertEqual(
            [it.place for it in objects_of(text.encode())][:4],
            [(0, 0), (0, 50_000_000), (10_000_000, 0), (10_000_000, 50_000_000)],
        )


def spread(dx=0.0, dy=0.0, *tracks):
    """Ten pads, joined by tracks between some of them."""
    at = [(x + dx, y + dy) for x, y in SPREAD]
    lines = [line for k, place in enumerate(at) for line in (f"%TO.P,U1,{k}*%", *flash(10, place))] + ["%TD*%"]
    return [*lines, *(line for a, b in tracks for line in draw(11, at[a], at[b]))]


def one(*lines):
    return {"m.json": manifest(), "top.gbr": gerber(*lines), "n.ipc": two(0, 0)}


def two(x, y):
    """A netlist of two of the pads."""
    return netlist(record("A", "J.1", x, y), record("B", "J.2", x + 1, y + 5))


class Likenesses(made.Case):
    def compared(self, board, other, **more):
        self.board(board)
        self.board(other, "other")
        return self.show("board", "--like", "other", **more)

    def test_one_track(self):
        with_it, without = one(*spread(0, 0, (0, 1), (2, 5))), one(*spread(0, 0, (0, 1)))
        for program in self.over_both():
            status, out, _ = self.compared(without, with_it, program=program)
            self.assertEqual(status, 1)
            self.assertIn(
                "like other: 1 parted net\n  parted-0: NET1: U1 pin 5 (the one layer, 9.000, 4.000 mm) is not joined to U1 pin 2",
                out,
            )
            self.assertIn("There top.gbr command 42 is near that place", out)
            status, out, _ = self.compared(with_it, without, program=program)
            self.assertEqual(status, 1)
            self.assertIn("like other: 1 joined net\n  joined-0: NET1 and NET4: ", out)
            self.assertIn(
                "There they are 1.8284 mm apart on the one layer (top.gbr) at 8.000, 3.000 mm, between top.gbr command 14 and top.gbr command 23.",
                out,
            )
        self.assertEqual(self.compared(with_it, with_it)[0], 0)

    def test_ties_and_bounds(self):
        """A tie that is declared for this board is no joined net, nor one that both boards keep apart an open one; between bounds places are told, too."""
        arc = ["D11*", "X20000000Y0D02*", "G75*", "G03X21000000Y1000000I0J1000000D01*", "G01*"]
        names = netlist(record("NET1", "J1.1", 3, 1), record("NET4", "J1.2", 6, 6))
        joined, apart = ({**one(*spread(0, 0, (0, 1), *more), *arc), "n.ipc": names} for more in ([(1, 4)], []))
        tie, apart_there = (
            ("--tie", "NET1=NET4"),
            "There they are 4.8309 mm apart on the one layer (top.gbr) at 4.500, 3.500 mm, between top.gbr command 11 and top.gbr command 20.",
        )
        rows = [
            (joined, apart, (), 1, ["1 joined net", "joined-0: NET1 and NET4: ", apart_there]),
            (joined, apart, tie, 0, ["joins what it joins"]),
            (apart, apart, tie, 1, ["joins what it joins"]),
            (joined, joined, (), 1, ["joins what it joins"]),
            (
                apart,
                joined,
                (),
                1,
                [
                    "1 parted net",
                    "parted-0: NET0: ",
                    "There top.gbr command 42 is near that place, the one layer (top.gbr) at 4.500, 3.500 mm.",
                ],
            ),
        ]
        for board, other, words, status, lines in rows:
            with self.subTest(lines=lines, words=words):
                self.board(other, "other")
                self.board(board)
                told, out, _ = self.show("board", "--like", "other", *words, program=made.built() or made.STAND_IN)
                self.assertEqual(told, status, out)
                for line in (
                    f"like other: {lines[0]}; not compared: 1 net without a record, first NET",
                    *lines[1:],
                ):  # that of the arc
                    self.assertIn(line, out)

    def test_moved_and_panel(self):
        other = one(*spread(0, 0, (0, 1)))
        rows = [
            (spread(7.3, -2.1, (0, 1)), 0, "(the other board moved by (7.300, -2.100) mm)"),
            (spread(7.3, -2.1), 1, "1 parted net (the other board moved by"),
            (
                ["%SRX2Y1I20.0J0.0*%", *spread(7.3, 2.1, (0, 1)), "%SR*%"],
                0,
                "joins what it joins (the other board moved by",
            ),
        ]
        for lines, status, words in rows:
            with self.subTest(words=words):
                files = {**one(*lines), "n.ipc": two(7.3, 2.1 if lines is rows[2][0] else -2.1)}
                told, out, _ = self.compared(files, other)
                self.assertEqual(told, status, out)
                self.assertIn(words, out)
                if status:
                    self.assertIn(
                        "There top.gbr command 39 is near that place, the one layer (top.gbr) at 1.500, 0.500 mm", out
                    )

    def test_what_is_not_compared(self):
        """Nets without a pad, areas that no file calls a pad, pads that are drawn: what has no record is told; with a pin it is compared."""
        square = lambda x: region((x, 0), (x + 1, 0), (x + 1, 1), (x, 1))
        pads = [*flash(10, (30, 0), (35, 0))]
        areas = [*square(0), *square(5)]
        rows = [
            (
                [*areas, *draw(11, (0, 0), (5, 0)), *pads],
                [*areas, *pads],
                0,
                "; not compared: 1 net without a record, first NET0 (top.gbr command 12)",
            ),
            (
                [*flash(10, (0, 0)), *square(5), *draw(11, (0, 0), (5, 0)), *pads],
                [*flash(10, (0, 0)), *square(5), *pads],
                0,
                "; not compared: 1 area that no file calls a pad",
            ),
            (
                ["%TO.P,U1,1*%", *square(0), "%TO.P,U1,2*%", *square(5), "%TD*%", *draw(11, (0, 0), (5, 0)), *pads],
                [*areas, *pads],
                1,
                "",
            ),
            (pads, pads, 0, ""),
            (
                ["%TO.P,U1,1*%", *draw(10, (30, 0), (30, 1)), "%TD*%", *pads],
                pads,
                0,
                "; not compared: 1 area that no file calls a pad",
            ),
        ]
        for other, board, status, words in rows:
            files = lambda lines: {
                "m.json": manifest(),
                "top.gbr": gerber(*lines),
                "n.ipc": netlist(record("A", "J.1", 30, 0), record("B", "J.2", 35, 0)),
            }
            for program in self.over_both():
                told, out, _ = self.compared(files(board), files(other), program=program)
                line = "1 parted net" if status else "joins what it joins"
                self.assertEqual(told, status, out)
                self.assertIn(f"like other: {line}{words}\n", out)
                like = json.loads(self.show("board", "--like", "other", "--json", "-", program=program)[1])["boards"][
                    0
                ]["like"]
                self.assertEqual(like["not_compared"], words[len("; not compared: ") :])

    def test_every_form(self):
        """Each cause of a status that is not 0 is in every form: the comparison, what is unlike a record, what is not known."""
        self.board(one(*spread(0, 0, (0, 1))))
        self.board(one(*spread(0, 0, (0, 1), (2, 5))), "other")
        self.assertEqual(self.show("other", "--record", "r.json")[0], 0)
        forms = ("--json", "f.json", "--junit", "f.xml", "--rdb", "f.lyrdb", "--page", "f.html")
        rows = [
            (
                ("--like", "other"),
                1,
                "failure",
                "parted-0",
                "NET1: U1 pin 5 (the one layer, 9.000, 4.000 mm) is not joined to U1 pin 2",
            ),
            (("--verify", "r.json"), 1, "failure", "record", "top.gbr is another file"),
            (("--verify", "none.json"), 12, "error", "record", "not verified: none.json"),
            (("--like", "nowhere"), 12, "error", "like nowhere", "not compared with nowhere: "),
        ]
        for words, status, word, name, told in rows:
            self.assertEqual(self.show("board", *words, *forms)[0], status)
            (found,) = minidom.parse(self.path("f.xml")).getElementsByTagName(word)
            self.assertEqual(
                (found.getAttribute("message"), told in found.firstChild.data), (name, True), found.toxml()
            )
            self.assertEqual(
                minidom.parse(self.path("f.xml")).getElementsByTagName("testsuite")[0].getAttribute(f"{word}s"), "1"
            )
            items = [it for it in minidom.parse(self.path("f.lyrdb")).getElementsByTagName("item")]
            self.assertTrue(items and told in items[0].toxml(), items)
            self.assertIn(told, self.read("f.json"))
            self.assertIn(told.replace('"', "&quot;"), self.read("f.html"))
        self.assertEqual(self.show("board", "--like", "board", *forms)[0], 0)
        self.assertEqual(
            [
                len(minidom.parse(self.path(name)).getElementsByTagName(tag))
                for name, tag in (("f.xml", "failure"), ("f.xml", "error"), ("f.lyrdb", "item"))
            ],
            [0] * 3,
        )

    def test_one_pad(self):
        """A board of one pad says nothing."""
        other = {**one(*flash(10, (0, 0)))}
        status, out, _ = self.compared(one(*spread()), {**other, "n.ipc": netlist(record("A", "J.1", 0, 0))})
        self.assertEqual((status, "not compared with other: " in out), (12, True), out)

    def test_what_cannot_be_compared(self):
        incremental = {**one(*spread()), "top.gbr": "%FSLAX46Y46*%\n%MOMM*%\nG91*\nM02*\n"}
        for other in (HOLES, incremental) if made.built() else ():
            status, out, _ = self.compared(one(*spread()), other, program=made.built())
            self.assertEqual(status, 12)
            self.assertIn("not compared with other: ", out)
