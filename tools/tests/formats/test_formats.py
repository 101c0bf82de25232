"""What `show` reads: reports, the normal form of copper, drill lines, netlist records, manifests."""
import os
import unittest

from boardnet_show.base import statuses
from boardnet_show.formats import ipc356, manifest, normal_form, units
from boardnet_show.formats.drills import drilled_holes
from boardnet_show.formats.report import BadReport, Report
from boardnet_show.geometry.shapes import Shapes
from boardnet_show.intake.package import Package, room
from boardnet_show.judging import board_copper
from tests.fixtures import common, made

REPORT = """boardnet 2
pieces 2
nets 1
net 0 0 1:0
names 2
name 0 A
name 1 B C
points 2
point 0 1 1 0 0
point 1 2 1 1 -
opens 0
shorts 0
missing 1
bare 1
spots 2
spot 0 0 -5
spot 1 10000000 0
sources 2
source 0 0 5 0 1 1
source 1 0 6 3 1 2
differs
"""
FLAT = (
    b"%FSLAX47Y47*%\n%MOMM*%\n%ADD10C,1.0000000*%\n%ADD11C,0.0000000*%\nD10*\nX0Y0D02*\nX0Y0D01*\nX-5Y0D02*\nX5Y7D01*\n"
    b"D11*\nX1Y1D02*\nX1Y1D01*\nG36*\nX0Y0D02*\nX9Y0D01*\nX9Y9D01*\nX0Y0D01*\nG37*\nM02*\n"
)


def read(add, *words):
    shapes = Shapes()
    add(shapes, *words)
    return [(shapes.radius[k], shapes.places(k)) for k in range(len(shapes))]


class Reports(unittest.TestCase):
    def test_lists(self):
        report = Report(REPORT.encode())
        self.assertEqual((report.pieces, report.nets, report.names), (2, 1, ["A", "B C"]))
        self.assertEqual(
            (list(report.net_of), list(report.parent), report.points), ([0, 0], [-1, 0], [(1, 1, 0, 0), (2, 1, 1, -1)])
        )
        self.assertEqual(
            (report.bare, report.spots, report.sources[1], report.agrees),
            ([1], [(0, -5), (10_000_000, 0)], (0, 6, 3, 1, 2), False),
        )

    def test_no_reports(self):
        rows = [
            "",
            "boardnet 3\n",
            REPORT[:120],
            REPORT.replace("boardnet 2", "boardnet 1").split("spots")[0] + "differs\n",
            REPORT.replace("sources 2", "sources 1"),
            REPORT.replace("net 0 0 1:0", "net 0 0 7:0"),
            REPORT.replace("differs", "perhaps"),
            REPORT.replace("spot 1 10000000 0\n", ""),
        ]
        for text in rows:
            with self.subTest(text=text[:40]), self.assertRaises(BadReport):
                Report(text.encode())


class Copper(unittest.TestCase):
    def test_normal_form(self):
        wanted = [(5_000_000, [(0, 0)]), (5_000_000, [(-5, 0), (5, 7)]), (0, [(1, 1)]), (-1, [(0, 0), (9, 0), (9, 9)])]
        self.assertEqual(read(normal_form.add_flat, FLAT), wanted)

    def test_other_forms(self):
        for text in (
            b"%FSLAX47Y47*%\nG01X0Y0D03*\nM02*\n",
            b"%LPC*%\nM02*\n",
            b"D10*\nX0Y0D02*\nX0Y0D01*\n",
            b"X1Y1D01*\n",
            FLAT + b"rest",
            b"G37*\n",
        ):
            with self.subTest(text=text), self.assertRaises(statuses.BadCopper):
                read(normal_form.add_flat, text)

    def test_drilled(self):
        drill = (
            b"M48\r\nINCH\r\n; X9.0Y9.0\r\nT1C0.04\r\nT02C.1\r\n%\r\nT1\r\nX1.0Y2.0\r\nY3.0\r\nX0.5G85Y4.0\r\nT2\r\nG00X0.0Y0.0\r\nM15\r\n"
            b"G01X1.0\r\nG01Y1.0\r\nM16\r\nG05\r\nM30\r\n"
        )
        inch = units.INCH
        self.assertEqual(
            read(drilled_holes.add_drilled, drill, {8, 9, 10, 14, 15}),
            [
                (inch // 50, [(inch, 2 * inch)]),
                (inch // 50, [(inch, 3 * inch)]),
                (inch // 50, [(inch // 2, 3 * inch), (inch // 2, 4 * inch)]),
                (inch // 20, [(0, 0), (inch, 0)]),
                (inch // 20, [(inch, 0), (inch, inch)]),
            ],
        )
        with self.assertRaises(statuses.BadCopper):
            read(drilled_holes.add_drilled, b"METRIC\nX1.0Y1.0\n", {2})

    def test_shapes_of_another_board(self):
        class Files:
            flattened = set()
            manifest = manifest.Manifest({"copper": ["t.gbr"], "drills": [], "netlist": "n"})

        report = Report(REPORT.replace(" 3 1 2", " 0 1 1").encode())
        apart = b"%ADD10C,1.0*%\nD10*\nX0Y0D02*\nX0Y0D01*\nX90000000Y0D02*\nX90000000Y0D01*\nM02*\n"
        for flat, words in ((FLAT, "4 shapes, but the report has 2"), (apart, "do not touch")):
            with self.assertRaisesRegex(statuses.BadCopper, words):
                board_copper.shapes_of(Files, report, lambda name: flat)


class Netlists(unittest.TestCase):
    def test_records(self):
        rows = [
            ("P  UNITS CUST 1", 10_000),
            ("P\tUNITS\tCUST\t0\r", 25_400),
            ("PUNITS CUST 1", 10_000),
            ("P UNITS CUST 1" + " " * 60 + "2", 10_000),
            ("P UNITS CUST 2", None),
            ("C  UNITS CUST 1", None),
            (" P UNITS CUST 1", None),
            ("P  UNITS SI", None),
            ("P  NOTE UNITS CUST 1\nP  UNITS CUST 0", 25_400),
        ]
        for line, unit in rows:
            self.assertEqual(ipc356.unit_of(f"C a\n{line}\n999\n".encode()), unit, line)
        lines = [
            "P  UNITS CUST 1",
            made.record("GND", "J1.1", -1, 2.5),
            "C note",
            "",
            "317GND              VIA        MD0118PA00X+0Y+0",
            "999",
            made.record("A", "J1.2", 0, 0),
        ]
        first, second = ipc356.records("\r\n".join(lines).encode())
        self.assertEqual(first, (2, False, "GND", "J1", "1", -10_000_000, 25_000_000))
        self.assertEqual(second[:5], (5, True, "GND", "VIA", ""))
        inches = ipc356.records(made.netlist(made.record("A", "U1.1", 0.01, 0)).replace("CUST 1", "CUST 0").encode())
        self.assertEqual(inches[0].x, 254_000)

    def test_written(self):
        """What is written is read back: a pad, a hole with all its columns, a pin that is too long for them."""
        rows = [
            ipc356.Written(ipc356.SURFACE, "GND", "J1", "1", 1, -5, 999_999),
            ipc356.Written(ipc356.THROUGH, "a", "", "", 0, 0, -1, True, 300, ipc356.Size(600, 0), "2"),
            ipc356.Written(ipc356.SURFACE, "NNAME1", "A_LONG_PART", "12345", 2, 7, 8),
        ]
        lines = list(map(ipc356.record_line, rows))
        self.assertEqual(lines[1], f"317{'a':<14}{'':14}MD0300PA00X+000000Y-000001X0600Y0000R000 S2")
        data = ipc356.file_text(
            [
                ipc356.units_line(10_000),
                ipc356.alias_line("NNAME1", "a whole name"),
                *lines[:2],
                ipc356.pin_comment(*rows[2][2:4]),
                lines[2],
            ]
        ).encode()
        self.assertEqual(
            ipc356.places(data), [ipc356.Place(it.code == ipc356.THROUGH, it.access, it.x, it.y) for it in rows]
        )
        self.assertEqual(ipc356.masks(data), ("", "2", ""))
        self.assertEqual([it[2:5] for it in ipc356.records(data)], [it[1:4] for it in rows])
        self.assertEqual(
            (ipc356.fields(data).names, ipc356.aliases(data)), ([b"GND", b"a", b"NNAME1"], {"NNAME1": "a whole name"})
        )
        changed = ipc356.changed(
            data, lambda line: ipc356.with_name(ipc356.with_access(ipc356.with_place(line, 1, 2), 3), b"B")
        )
        self.assertEqual({(it.access, it.x, it.y) for it in ipc356.places(changed)}, {(3, 1, 2)})
        self.assertEqual(ipc356.fields(changed).names, [b"B"])
        self.assertEqual(ipc356.unit_of(ipc356.in_other_unit(data)), 25_400)

    def test_what_looks_like_a_netlist(self):
        for lines, answer in (
            (["317A", "999"], True),
            (["P UNITS CUST 1", "327A"], True),
            (["PUNITS", "999"], True),
            (["999", "C"], False),
            (["317A", "327A"], False),
            (["P  UNITS", "P UNITS"], False),
            (["G04 a*", " 317", " 999"], False),
        ):
            self.assertEqual(ipc356.is_netlist("\n".join(lines).encode()), answer, lines)


class Conformance(made.Case):
    """The reader says the same as the program of what that takes."""

    def test_records(self):
        rows = [
            made.record("GND", "J1.1", -1, 2.5),
            "C note",
            "",
            "317 A             VIA        MD0118PA00X+    5Y-000010",
            "\t",
            "327              R1    -2          A 1X 000000Y 00001200000",
            "327NNAME1         U1    -1          A01X-1     Y+000002",
            "367A",
            "079",
            "P  NNAME1  whole",
            "327a\tb           U1    -1          A01X-000001Y+000002",
            "327B\r",
            "999",
            made.record("C", "J1.1", 0, 0),
        ]
        pads, taken = made.gerber(*made.flash(10, (0, 0))), 0
        for rows in ([rows[k]] if k < len(rows) else rows[:6] + rows[7:10] for k in range(len(rows) + 1)):
            for head in ("P  UNITS CUST 1", "PUNITS\tCUST 0"):
                data = "\n".join([head, *rows, *(() if "999" in rows else ("999", "")), ""]).encode()
                self.board({"m.json": made.manifest(), "top.gbr": pads, "n.ipc": data})
                status, out, notes = self.run_words([common.program(), "check", "m.json"], self.path("board"))
                self.assertIn(status, (0, 1, 3), notes)
                taken += status != 3
                if status != 3:
                    told, found = Report(out.encode()), ipc356.records(data)
                    named = [(found[row[0] - 1].name, found[row[0] - 1].x, found[row[0] - 1].y) for row in told.points]
                    said = [(told.names[row[2]], *spot) for row, spot in zip(told.points, told.spots)]
                    self.assertEqual(said, named, data)
        self.assertEqual(taken, 30)


class Packages(made.Case):
    def test_manifests(self):
        for text in (
            b"[]",
            b"{}",
            b"\xff",
            b'{"copper":[1],"drills":[{}],"netlist":"n"}',
            b"[" * 100_000,
            b'{"copper":[],"drills":[{"file":"d","from":1e999,"to":1}],"netlist":"n"}',
        ):
            self.assertIsNone(manifest.of_text(text))
        told = manifest.of_text(made.manifest(["a", "b", "c"], [("d", 1, 2)]).encode())
        self.assertEqual(
            (told.files, told.layers, [told.layer_word(k) for k in (1, 2, 3)]),
            (["a", "b", "c", "d"], 3, ["top", "layer 2", "bottom"]),
        )
        self.assertEqual(manifest.of_text(told.json_text().encode()).files, told.files)

    def test_names_stay_in_the_scratch_folder(self):
        os.makedirs(self.path("scratch"))
        folder = room(self.path("scratch"), ["../../a.gbr", "b/c.gbr"])
        inside = os.path.realpath(os.path.join(folder, "../../a.gbr"))
        self.assertTrue(inside.startswith(os.path.realpath(self.path("scratch"))))

    def test_changed_copies_leave_the_files(self):
        told = manifest.of_text(made.manifest().encode())
        self.write("user/top.gbr", "mine")
        os.makedirs(self.path("here"))
        package = Package(told, self.path("here"))
        package.link("top.gbr", self.path("user", "top.gbr"))
        other = package.changed(self.path("other"), {"n.ipc": b"moved"})
        other.put("top.gbr", b"changed")
        self.assertEqual(
            (package.read("top.gbr"), other.read("top.gbr"), other.read("n.ipc"), self.read("user/top.gbr")),
            (b"mine", b"changed", b"moved", "mine"),
        )
