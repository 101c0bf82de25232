"""Netlists that do not say how they are read: what their points on pads say, what stays unclear, and that `--yes` is wanted."""
import json
import os
import sys

from boardnet_show.formats import ipc356
from boardnet_show.intake.evidence import netlist_readings, readings
from boardnet_show.intake.evidence.pad_middles import Middles
from tests.fixtures import common, made
from tests.fixtures.made import draw, flash, gerber, manifest, netlist, record

# Ten pads of nets of two, each joined by a track, at places that both units say exactly.
AT = [
    (x, y)
    for y, xs in (
        (2.54, (1.016, 5.08)),
        (7.62, (9.144, 12.7)),
        (11.43, (2.032, 17.78)),
        (15.24, (20.32, 7.366)),
        (19.05, (14.478, 23.114)),
    )
    for x in xs
]
PAIRS = [(AT[k], AT[k + 1]) for k in range(0, 10, 2)]
NAMES = "ABCDE"
COPPER = gerber(*flash(10, *AT), *(line for pair in PAIRS for line in draw(11, *pair)))
BROKEN = gerber(*flash(10, *AT), *(line for pair in PAIRS[1:] for line in draw(11, *pair)))
NO_UNIT = ("", "P  UNITS CUST", "P  UNITS CUST 2", "P  UNITS", "P  JOB   board", "C a note")


def points(unit=0.001, at=AT):
    """The points in a unit in millimetres."""
    return [record(NAMES[k // 2 % 5], f"U{k}.1", x * 0.001 / unit, y * 0.001 / unit) for k, (x, y) in enumerate(at)]


def lines(head, records):
    return "\n".join([*([head] if head else []), *records, "999", ""])


class Units(made.Case):
    def told(self, text, copper=COPPER, *words):
        self.board({"m.json": manifest(), "top.gbr": copper, "n.ipc": text})
        return self.show("board", *words, program=common.program())

    def test_what_is_taken(self):
        """Both units, by every head that leaves it open: told under status 10, and judged with --yes."""
        for unit, code, number in ((0.001, "CUST 1", "0.001 mm"), (0.00254, "CUST 0", "0.0001 inch")):
            for head in NO_UNIT:
                text = lines(head, points(unit))
                status, out, _ = self.told(text)
                wanted = f"would be taken: n.ipc as a netlist in units of {number} ({code}), which it does not say: 10 of 10 points lie on pads, in the other unit 0\n"
                self.assertEqual((status, wanted in out), (10, True), out)
                for copper, answer in ((COPPER, (0, "PASS board: ")), (BROKEN, (1, "FAIL board: 1 open. "))):
                    status, out, _ = self.told(text, copper, "--yes")
                    self.assertEqual((status, out.startswith(answer[1])), (answer[0], True), out)
                    self.assertIn(f"taken as n.ipc as a netlist in units of {number}", out)

    def test_other_forms(self):
        """The line stands where it moves no other, with the line's end of the file."""
        for head in NO_UNIT[1:]:
            data = netlist_readings.with_unit(lines(head, points()).replace("\n", "\r\n").encode(), 10_000)
            self.assertEqual(data.split(b"\n")[:2], [b"P  UNITS CUST 1\r", (points()[0] + "\r").encode()], head)
        data = netlist_readings.with_unit(("P  NNAME1  A\n" + lines("", points())).encode(), 10_000)
        self.assertEqual(data.split(b"\n")[:2], [b"P  UNITS CUST 1", b"P  NNAME1  A"])
        data = netlist_readings.with_unit(("C PIN,U0,1\n" + lines("", points())).encode(), 10_000)
        self.assertEqual(data.split(b"\n")[:2], [b"P  UNITS CUST 1", b"C PIN,U0,1"])

    def test_what_stays_refused(self):
        """Too few points, points beside pads, a unit that is not known, one that comes late, two of them: the refusal of `check`."""
        fits = points()
        rows = [
            (lines("", fits[:7]), "MissingUnits"),
            (lines("", [*fits[:9], record("E", "U9.1", 50, 50)]), "MissingUnits"),
            (lines("P  UNITS MM", fits), "BadUnits"),
            ("\n".join([*fits, "P  UNITS CUST 1", "999", ""]), "MissingUnits"),
            (lines("P  UNITS CUST\nP  UNITS CUST", fits), "BadUnits"),
            (lines("P  UNITS CUST 1\nP  UNITS CUST 1", fits), "UnitsTwice"),
            (lines("", fits).replace("999\n", ""), "NotEnded"),
            (lines("", points(0.01)), "MissingUnits"),
        ]
        for text, kind in rows:
            status, out, _ = self.told(text, COPPER, "--yes", "-q")
            self.assertEqual((status, kind in out), (3, True), out)

    def test_units_that_both_fit(self):
        """A grid on which points lie in either unit is not clear."""
        at = [(x, y) for x in (0.0, 0.254, 0.508) for y in (0.0, 0.254, 0.508)]
        text = lines("", [record("A", f"U{k}.1", x, y) for k, (x, y) in enumerate(at)])
        spots = {(it.x, it.y) for it in ipc356.places(text.encode())}
        both = {(x * unit / 10**7, y * unit / 10**7) for x, y in spots for unit in (10_000, 25_400)}
        status, out, _ = self.told(text, gerber(*flash(11, *sorted(both))), "--yes", "-q")
        self.assertEqual((status, "MissingUnits" in out), (3, True), out)

    def test_what_is_clear(self):
        rows = [
            (8, 8, [2], True),
            (7, 7, [0], False),
            (95, 100, [31], True),
            (94, 100, [0], False),
            (95, 100, [32], False),
            (9, 9, [3], True),
            (9, 9, [4], False),
        ]
        for count, places, others, answer in rows:
            self.assertEqual(readings.is_clear(count, places, others), answer, (count, places, others))

    def test_manifest(self):
        """`manifest` says the same, and writes the copy."""
        top = "%TF.FileFunction,Copper,L1,Top*%"
        self.board({"top.gbr": COPPER.replace("%MOMM*%", "%MOMM*%\n" + top), "n.ipc": lines("P  UNITS CUST", points())})
        script = os.path.join(common.TOOLS, "manifest")
        status, _, notes = self.run_words([sys.executable, script, "board"])
        self.assertEqual((status, "would be taken: n.ipc as a netlist in units of 0.001 mm" in notes), (1, True), notes)
        status, _, notes = self.run_words([sys.executable, script, "board", "--yes", "--mend"])
        self.assertEqual((status, json.loads(self.read("board/m.json"))["netlist"]), (0, "n.mended.ipc"), notes)
        self.assertTrue(self.read("board/n.mended.ipc").startswith("P  UNITS CUST 1\n327A"))

    def test_middles(self):
        """A place is on a pad where it is at most so far from its middle; other units and formats of copper are read."""
        inches = "%FSLAX24Y24*%\n%MOIN*%\n%ADD10C,.05*%\nD10*\nX10000Y-5000D03*\nX0D02*\nY0D03*\nM02*\n"
        middles = Middles([inches.encode(), b"%FSLAX46Y46*%\nX0D03*\n", b"", gerber(*flash(10, (1, 1))).encode()])
        self.assertEqual(
            [
                middles.is_at(spot, 10)
                for spot in (
                    (254_000_010, -127_000_010),
                    (254_000_011, -127_000_000),
                    (0, 0),
                    (10_000_000, 10_000_000),
                    (0, -127_000_000),
                )
            ],
            [True, False, True, True, False],
        )


class Layers(made.Case):
    def files(self, code="04", more=()):
        points = [record("A", "J1.1", 0, 0), record("B", "J1.2", 5, 5), record("A", "J2.1", 3, 0, code), *more]
        return {
            "m.json": manifest(["top.gbr", "bot.gbr"], [("p.drl", 1, 2)]),
            "top.gbr": gerber(*flash(10, (0, 0), (5, 5))),
            "p.drl": made.drill((0.0, 0.0)),
            "bot.gbr": gerber(*flash(10, (3, 0)), *draw(11, (3, 0), (0, 0))),
            "n.ipc": netlist(*points),
        }

    def test_a_code_over_the_layers(self):
        self.board(self.files())
        status, out, _ = self.show("board")
        self.assertEqual(
            (
                status,
                "would be taken: n.ipc as a netlist whose code A04 is the last layer, 02: no record has that" in out,
            ),
            (10, True),
            out,
        )
        status, out, _ = self.show("board", "--yes")
        self.assertEqual(
            (status, "taken as n.ipc as a netlist whose code A04 is the last layer" in out), (0, True), out
        )
        self.board({**self.files(), "bot.gbr": gerber(*flash(10, (3, 0)))})
        self.assertEqual(self.show("board", "--yes")[0], 1)

    def test_a_code_of_the_bottom(self):
        self.board(self.files("16"))
        status, out, _ = self.show("board", "--all")
        self.assertEqual(
            (status, out.splitlines()[1]),
            (0, "mended: n.ipc: line 4, `A16`, is no layer of this board: read as the last, 02"),
        )

    def test_what_stays_refused(self):
        """Two codes over the layers, one beside that of the last layer, one of vias alone."""
        via = record("A", "VIA", 0, 0, "00").replace("A00", "A07")
        for files in (
            self.files(more=[record("A", "J3.1", 3, 0, "03")]),
            self.files(more=[record("A", "J3.1", 3, 0, "02")]),
            self.files("01", [via]),
        ):
            self.board(files)
            status, out, _ = self.show("board", "--yes", "-q", program=common.program())
            self.assertEqual((status, "BadAccess" in out), (3, True), out)


class Notes(made.Case):
    def test_records_that_name_no_point(self):
        self.board(
            {
                "m.json": manifest(),
                "top.gbr": gerber(*flash(10, (0, 0), (5, 5))),
                "n.ipc": netlist(record("A", "J1.1", 0, 0), "379A", "379B", "367N/C", record("B", "J1.2", 5, 5)),
            }
        )
        status, out, _ = self.show("board")
        self.assertEqual(
            (status, "n.ipc: 3 records that name no test point are passed over: 1 of 367 and 2 of 379\n" in out),
            (0, True),
            out,
        )
