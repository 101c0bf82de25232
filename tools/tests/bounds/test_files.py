"""Copper files between two files, and packages between two packages, over the stand-in and over the built program."""
import json
import os
import random
import tempfile
import unittest
from math import cos, pi, sin
from unittest import mock

from boardnet_show.base.progress import Progress
from boardnet_show.bounds.files import bounded_file
from boardnet_show.bounds.files.bounded_file import Copper
from boardnet_show.bounds.files.operations import Operations
from boardnet_show.formats import manifest as manifests
from boardnet_show.formats.gerber_objects import objects_of
from boardnet_show.formats.gerber_lexer import tokens
from boardnet_show.geometry.exact import Refused
from boardnet_show.intake.package import Package
from boardnet_show.judging import judged, two_bounds
from boardnet_show.judging.nothing_judged import NO_POINTS
from boardnet_show.judging.program import Program
from boardnet_show.judging.upper_joins import Differing
from boardnet_show.output.sentences import answers as sentences
from boardnet_show.output.sentences.findings import statement
from boardnet_show.output.sentences.verdicts import NOT_KNOWN
from tests.fixtures import made
from tests.fixtures.made import STAND_IN, flash, manifest, netlist, record
from tests.fixtures.real_shapes import Real, fine, has, pieces_of

HEAD = ["%FSLAX46Y46*%", "%MOMM*%", "G75*"]


def text_of(*lines):
    return "\n".join(["%FSLAX46Y46*%", "%MOMM*%", *lines, "M02*", ""])


def copper_of(*lines):
    return Copper("\n".join(HEAD + list(lines) + ["M02*"]))


class Graphs(unittest.TestCase):
    def test_made_once(self):
        """A net may have many findings."""
        seen = Differing.__new__(Differing)
        seen.graphs, seen.pieces = {}, {3: [1, 2], 4: [5]}
        with mock.patch.object(Differing, "joined", side_effect=list) as joined:
            self.assertEqual([seen.graph(net) for net in (3, 4, 3, 3)], [[1, 2], [5], [1, 2], [1, 2]])
        self.assertEqual(joined.call_count, 2)


class Files(unittest.TestCase):
    def test_made_once(self):
        """A file's bounds are made once for a package and its copies: not anew with another netlist, but where its bytes are others; two equal files have both."""
        arcs = text_of("%ADD10C,0.2*%", "D10*", "G75*", "X1000000Y0D02*", "G03X-1000000Y0I-1000000J0D01*")
        files = {
            "m.json": manifest(["a.gbr", "b.gbr", "c.gbr"]),
            "a.gbr": arcs,
            "b.gbr": arcs,
            "c.gbr": text_of("%ADD10C,0.2*%", "D10*", "X5Y5D03*"),
            "n.ipc": netlist(),
        }
        with tempfile.TemporaryDirectory() as folder:
            for name, text in files.items():
                with open(os.path.join(folder, name), "w", encoding="ascii") as file:
                    file.write(text)
            os.mkdir(os.path.join(folder, "in"))
            package = Package(manifests.of_text(files["m.json"].encode()), folder).changed(
                os.path.join(folder, "in", "board")
            )
            with mock.patch.object(bounded_file, "of_text", side_effect=bounded_file.of_text) as made:
                first = two_bounds.of_package(package)
                self.assertEqual(made.call_count, 3)
                tried = package.changed(os.path.join(folder, "in", "tried"), {"n.ipc": b"999\n"})
                second = two_bounds.of_package(tried)
                self.assertEqual(made.call_count, 3)
                other = package.changed(
                    os.path.join(folder, "in", "other"), {"b.gbr": arcs.replace("0.2", "0.3").encode()}
                )
                two_bounds.of_package(other)
                self.assertEqual(made.call_count, 4)
            for one, two in zip(first.packages, second.packages):
                self.assertTrue(all(one.read(name) == two.read(name) for name in ("a.gbr", "b.gbr", "c.gbr")))
                self.assertEqual(one.read("a.gbr"), one.read("b.gbr"))
                self.assertNotEqual(one.read("a.gbr"), arcs.encode())
            self.assertEqual((first[1:], second.packages[0].read("n.ipc")), (second[1:], b"999\n"))

    def test_refused_by_name(self):
        use = ["D10*", "X5Y5D03*"]
        macro = ["%ADD10A*%", *use]
        region = ["G36*", "X0Y0D02*", "X1000000Y0D01*", "X0Y1000000D01*"]
        rows = [
            ("a word in a region", region + ["%LPC*%"]),
            ("exposure not 0 or 1", ["%AMA*1,2,1,0,0*%", *macro]),
            ("moire", ["%AMA*6,0,0,1,.1,.1,2,.1,1,0*%", *macro]),
            ("no thermal", ["%AMA*7,0,0,1,1.8,.1,0*%", *macro]),
            ("a contour that is not closed", ["%LPC*%", *region, "G37*"]),
            ("too many copies", ["%ADD10C,1*%", "D10*", "%SRX1000Y1000I1J1*%", "X5Y5D03*", "%SR*%", "%LPC*%"]),
            ("arc with a pen that is no circle", ["%ADD10R,1X1*%", "D10*", "X0Y0D02*", "G03X2000000Y0I1000000J0D01*"]),
            (
                "draw with a pen that is no circle, rectangle, obround or polygon",
                ["%ADD10P,1X6X0X.1*%", "D10*", "X0Y0D02*", "X2000000Y0D01*"],
            ),
            *(
                (
                    "an arc whose ends are too unlike",
                    ["%ADD10C,.2*%", "G75*", "D10*", *its, "G37*"][: -1 if len(its) < 4 else None],
                )
                for its in (
                    ["X10000000Y0D02*", "G03X995000Y99875I-10000000J0D01*"],
                    ["X995000Y99875D02*", "G02X10000000Y0I-995000J-99875D01*"],
                    [
                        "G36*",
                        "X10000000Y0D02*",
                        "G03X995000Y99875I-10000000J0D01*",
                        "G01X10000000Y10000000D01*",
                        "X10000000Y0D01*",
                    ],
                )
            ),
            ("two units", ["%MOIN*%"]),
            ("hole that is not round", ["%ADD10C,1X.2X.2*%", *use]),
            ("hole that is not round", ["%ADD10O,1X2X.2X.2*%", *use]),
            ("outline not closed", ["%AMA*4,1,3,0,0,1,0,1,1,0,.1,0*%", *macro]),
            ("macro that is not defined", macro),
            ("a size under 0", ["%AMA*1,1,-1,0,0*%", *macro]),
            ("arc without I and J", ["%ADD10C,1*%", "D10*", "G02X1000000D01*"]),
            ("I or J without an arc", ["%ADD10C,1*%", "D10*", "G01X1000000I5D01*"]),
            ("format", ["%FSLIX46Y46*%"]),
            ("word in a region", region + ["%SRX2Y1I5J0*%"]),
            ("region without an end", region),
            ("flash in a region", region + ["X0Y0D03*"]),
            ("line break in a word", ["%ADD10C,\n1*%"]),
            ("no whole tenth", ["%SRX2Y1I.00000005J0*%"]),
            ("coordinates without an operation", ["X5Y5D02*", "X6Y6*"]),
            ("a block without an end", ["%ABD12*%"]),
            ("a block's beginning or end", ["%AB*%"]),
            ("defined again after its use", ["%ADD10C,1*%", *use, "%ADD10C,2*%"]),
            ("two units", ["%ABD12*%", "%MOIN*%", "%AB*%"]),
            *(
                ("a word in a block that is not known", ["%ABD12*%", word, "%AB*%"])
                for word in ("%IPNEG*%", "G91*", "D77*", "%SRX1*%", "%LMZ*%", "%TF.FilePolarity,Negative*%")
            ),
            ("no aperture", ["%ABD12*%", "X5Y5D03*", "%AB*%"]),
            ("a draw with a pen", ["%ABD12*%", "%AB*%", "D12*", "X5Y5D01*"]),
            ("over 64 brackets in one another", [f"%AMA*1,1,{'(' * 400}1{')' * 400},0,0*%", *macro]),
            ("a number of over 60 digits", [f"%AMA*1,1,{'1' * 5000},0,0*%", *macro]),
            ("a number of over 60 digits", [f"%ADD10C,{'1' * 5000}*%"]),
            ("a number of over 60 digits", [f"%SRX2Y1I{'1' * 5000}J0*%"]),
            ("a number of over 60 digits", [f"%LR{'1' * 5000}*%"]),
            ("no expression", [f"%AMA*1,1,${'1' * 5000},0,0*%", *macro]),
            ("no expression", [f"%AMA*${'1' * 5000}=1*1,1,1,0,0*%", *macro]),
            ("a line of nearly no length", [f"%AMA*20,1,.1,0,0,{'.' + '0' * 40}1,{'.' + '0' * 40}1,0*%", *macro]),
            ("a number of over 1000 bits", ["%AMA*" + "$1=0.123456789*" + "$1=$1x$1*" * 20 + "1,1,$1,0,0*%", *macro]),
        ]
        for words, lines in rows:
            with self.subTest(words=words), self.assertRaisesRegex(Refused, words + ".* at command|" + words):
                copper_of(*lines)
        with self.assertRaisesRegex(Refused, "no format"):
            Copper("%MOMM*%X5Y5D02*M02*")
        with self.assertRaisesRegex(Refused, "arc before G74 or G75"):
            Copper("%FSLAX46Y46*%%MOMM*%%ADD10C,1*%D10*G02X5Y5I1D01*M02*")
        with self.assertRaisesRegex(Refused, "a word without an end"):
            Copper("%FSLAX46Y46*%%MOMM*%M02")

    def test_passed_on(self):
        """What the profile has stays as it is, and so does what `check` is to refuse; each word knows its command."""
        lines = [
            "%TF.Part,Single*%",
            "%ADD10C,1.0*%",
            "%ADD11R,0.5X0.4*%",
            "D10*",
            "X1000000Y0D02*",
            "Y2000000D01*",
            "%TO.N,A*%",
            "D11*",
            "D03*",
            "G36*",
            "X0Y0D02*",
            "X1Y0D01*",
            "X0Y1D01*",
            "X0Y0D01*",
            "G37*",
            "%LMZ*%",
            "G91*",
        ]
        copper = copper_of(*lines)
        self.assertEqual((copper.replaced, copper.lost, copper.sides[0].lines), (0, [], copper.sides[1].lines))
        self.assertEqual(
            copper.sides[0].lines,
            [
                "%FSLAX47Y47*%",
                "%MOMM*%",
                "%TF.Part,Single*%",
                "%ADD10C,1.0000000*%",
                "%ADD11R,0.5000000X0.4000000*%",
                "X10000000Y0D02*",
                "D10*",
                "X10000000Y20000000D01*",
                "%TO.N,A*%",
                "D11*",
                "X10000000Y20000000D03*",
                "G36*",
                "X0Y0D02*",
                "X10Y0D01*",
                "X0Y10D01*",
                "X0Y0D01*",
                "G37*",
                "%LMZ*%",
                "G91*",
                "M02*",
            ],
        )
        given = [word.text.decode() for word in tokens("\n".join(HEAD + lines).encode())]
        self.assertEqual(
            [given[source - 1] for source in copper.sides[0].sources[5:11]],
            ["X1000000Y0D02", "Y2000000D01", "Y2000000D01", "TO.N,A", "D03", "D03"],
        )

    def test_regions_at_once(self):
        """The words of a region are read at once where all say both coordinates, and else one by one: with the same outcome."""
        square = ["X0Y0D02*", "X+9Y0D01*", "X9Y9D1*", "X0Y09D01*", "X0Y-0D01*"]
        plain = ["X0Y0D02*", "X900Y0D01*", "X900Y9000D01*", "X0Y9000D01*", "X0Y0D01*"]
        for before in ([], ["G02*", "G01*"], ["%LPC*%"], ["X5Y5D02*"], ["%ADD10C,.1*%", "D10*", "X7Y7D01*"]):
            for body in (
                square,
                square * 2,
                [*square, "X50Y50D02*"],
                ["X3Y3D02*", *square],
                plain,
                plain * 2,
                [*plain, *square],
            ):
                told = [
                    copper_of(*before, "G36*", *inside, "G37*", "Y20D02*", "X8Y1D02*")
                    for inside in (
                        body,
                        ["G04 each*", *body],
                        [*body[:2], "G04*", *body[2:]],
                        [body[0], "G01*", *body[1:]],
                        [word for it in body for word in (it, "G04*")],
                    )
                ]
                for one, other in zip(told, told[1:]):
                    self.assertEqual([side.lines for side in one.sides], [side.lines for side in other.sides])
                    self.assertEqual(
                        [it._replace(tag=0) for it in one.objects], [it._replace(tag=0) for it in other.objects]
                    )
                made = [
                    objects_of("\n".join([*HEAD, *before, "G36*", *inside, "G37*", "Y20D02*", "M02*"]).encode())
                    for inside in (body, [word for it in body for word in (it, "G04*")])
                ]
                self.assertEqual([it._replace(command=0) for it in made[0]], [it._replace(command=0) for it in made[1]])
        for body in (
            square[1:],
            plain[1:],
            ["G03*", *square],
            ["G03*", *plain],
            ["X1Y1D03*"],
            [*plain, "X12345678901234Y0D01*"],
            [*plain, "X1Y1D01*5", "X2Y2D01*"],
        ):
            said = []
            for inside in (body, [word for it in body for word in (it, "G04 each*")]):
                try:
                    said.append([side.lines for side in copper_of("X9Y9D02*", "G36*", *inside, "G37*").sides])
                except Refused as why:
                    said.append(str(why).split(" at ")[0])
            self.assertEqual(*said)

    def test_holes(self):
        copper = copper_of("%ADD10C,1X.4*%", "%ADD11R,1X.6X.3*%", "D10*", "X0Y0D03*", "D11*", "X5000000Y0D03*")
        low, high = (pieces_of(side) for side in copper.sides)
        rows = [
            ((0, 0), False, False),
            ((1990000, 0), False, False),
            ((2010000, 0), True, True),
            ((4990000, 0), True, True),
            ((50000000, 0), False, False),
            ((50000000, 1490000), False, False),
            ((50000000, 1510000), True, True),
            ((45010000, -2990000), True, True),
        ]
        for p, below, above in rows:
            self.assertEqual((has(low, fine(p)), has(high, fine(p))), (below, above), p)
        for aperture, lost in (("C,1X1", ["a shape with a hole at command 6"]), ("C,0X1", []), ("C,1X.4", [])):
            self.assertEqual(copper_of(f"%ADD10{aperture}*%", "D10*", "X0Y0D03*").lost, lost)

    def test_many_rectangles_with_a_hole(self):
        """Behind the first 1,000 of a file one is solid above, so that the board keeps its bounds."""
        high = pieces_of(copper_of("%ADD11R,1X.6X.3*%", "D11*", *(f"X{k}000000Y0D03*" for k in range(1002))).sides[1])
        self.assertEqual([has(high, fine((k * 10**7, 0))) for k in (0, 999, 1000, 1001)], [False, False, True, True])
        self.assertLess(len(high), 100_000)

    def test_single_quadrant(self):
        copper = copper_of("%ADD10C,0.2*%", "D10*", "G74*", "X1000000Y0D02*", "G03X0Y1000000I1000000J0D01*")
        low, high = (pieces_of(side) for side in copper.sides)
        for p, inside in (
            ((7071000, 7071000), True),
            ((7900000, 7900000), False),
            ((-7071000, 7071000), False),
            ((7071000, -7071000), False),
        ):
            self.assertEqual((has(low, fine(p)), has(high, fine(p))), (inside, inside), p)

    def test_right_angles_on_the_grid(self):
        """Centre and ends are rounded, so that about one angle in five is over a right one while another centre fits."""
        rng = random.Random(7)
        for tried in range(1000):
            read = Operations()
            read.quadrants, read.mode, read.unit = "G74", rng.choice((2, 3)), 10
            x, y, radius, angle = (
                *(rng.uniform(-(10**7), 10**7) for _ in range(2)),
                10 ** rng.uniform(3, 6.5),
                rng.uniform(0, 2 * pi),
            )
            place = lambda r, t: (10 * round(x + r * cos(t)), 10 * round(y + r * sin(t)))
            centre, start = place(0, 0), place(radius, angle)
            read.spot = place(radius, angle + (read.mode - 2.5) * pi)
            self.assertEqual(
                read.centre(start, tuple(abs(a - b) for a, b in zip(centre, start))), centre, (start, read.spot)
            )

    def test_as_unlike_ends(self):
        read = Operations()
        read.quadrants, read.mode, read.unit, read.spot = "G74", 3, 10, (130, 130)
        self.assertEqual(read.centre((0, 0), (10, 130)), (-10, 130))

    def test_steps_and_inches(self):
        copper = Copper(
            "%FSLAX24Y24*%\n%MOIN*%\n%AMA*21,1,.1,.1,0,0,30*%\n%ADD10A*%\n%SRX2Y1I.5J0*%\nD10*\nX10000Y0D03*\n%SR*%\nM02*"
        )
        self.assertIn("%SRX2Y1I12.7000000J0.0000000*%", copper.sides[0].lines)
        area = pieces_of(copper.sides[1])[0].corners
        self.assertTrue(all(abs(x - 254000000) < 20000000 and abs(y) < 20000000 for x, y in area))

    def test_mirrored_circles(self):
        """A word that changes no circle: the file is written without it all the same, since `check` refuses it."""
        copper = copper_of("%ADD10C,1*%", "%LMX*%", "D10*", "X5Y5D03*")
        self.assertEqual((copper.replaced, [line for line in copper.sides[0].lines if "LM" in line]), (1, []))

    def test_odd_sizes(self):
        for it, low, high in (
            ("C,0.0000003", "C,0.0000002", "C,0.0000004"),
            ("R,0.0000003X0.0000002", "R,0.0000002X0.0000002", "R,0.0000004X0.0000002"),
            ("O,0.0000009X0.0000008", "O,0.0000008X0.0000006", "O,0.0000010X0.0000010"),
            ("O,0.0000007X0.0000008", "O,0.0000006X0.0000008", "O,0.0000008X0.0000008"),
            ("O,0.0000002X0.0000009", "O,0.0000002X0.0000008", "O,0.0000002X0.0000010"),
            ("O,50X60.0000001", "O,50.0000000X60.0000000", "O,50.0000000X60.0000002"),
        ):
            copper = copper_of(f"%ADD10{it}*%", "D10*", "X0Y0D03*")
            self.assertEqual(
                [line for side in copper.sides for line in side.lines if line.startswith("%AD")],
                [f"%ADD10{low}*%", f"%ADD10{high}*%"],
            )

    def test_turned_macros(self):
        """A macro at many angles, in a file: places of it lie on the right side of both bounds."""
        rng = random.Random(11)
        for _ in range(20):
            real = Real(rng)
            body = ",".join(
                [str(real.code), "1"]
                + [
                    f"{part}/10000000" if k or real.code not in (4, 5) else f"{part}"
                    for k, part in enumerate(real.parts)
                ]
                + [str(real.rotation)]
            )
            copper = copper_of(f"%AMA*{body}*%", "%ADD10A*%", "D10*", "X0Y0D03*")
            low, high = (pieces_of(side) for side in copper.sides)
            for _ in range(20):
                p = real.near_border()
                truth = real.has(p)
                self.assertFalse(has(low, p) and truth is False, (body, p))
                self.assertFalse(truth is True and not has(high, p), (body, p))


class Packages(made.Case):
    ARC = [*HEAD, "%ADD10C,0.2*%", "%ADD11C,1.0*%", "D10*", "X1000000Y0D02*", "G03X-1000000Y0I-1000000J0D01*", "G01*"]

    def judged(self, program, copper, records, files=()):
        folder = tempfile.mkdtemp(dir=self.scratch)
        names = {
            "m.json": manifest(),
            "top.gbr": "\n".join([*copper, "M02*", ""]),
            "n.ipc": netlist(*records),
            **dict(files),
        }
        for name, text in names.items():
            with open(os.path.join(folder, name), "w", encoding="ascii") as file:
                file.write(text)
        runs = Program(program, Progress(quiet=True))
        return runs, judged.judge(runs, Package(manifests.of_text(names["m.json"].encode()), folder))

    def bounded(self, program, copper, records):
        return two_bounds.bounded(*self.judged(program, copper, records))

    def test_agrees(self):
        for program in self.over_both():
            told = self.bounded(
                program, self.ARC, [record("A", "J1.1", 1, 0), record("A", "J1.2", -1, 0), record("A", "J1.3", 0, 1)]
            )
            self.assertEqual((told.status, told.findings, told.left_out), (0, [], []))
            self.assertEqual(sentences.line(told.answer), "agrees, between two bounds")

    def test_differs(self):
        """What both have is the board's: a short, a point without copper, a name in two parts."""
        records = [
            record("A", "J1.1", 1, 0),
            record("B", "J1.2", -1, 0),
            record("C", "J1.3", 0, 0),
            record("D", "J1.4", 5, 0),
            record("D", "J1.5", 7, 0),
        ]
        for program in self.over_both():
            told = self.bounded(program, [*self.ARC, *flash(11, (5, 0), (7, 0))], records)
            self.assertEqual(told.status, 1)
            self.assertEqual(
                [(it.kind, it.is_sure, statement(it.what)) for it in told.findings],
                [
                    (
                        "open",
                        True,
                        "D is in 2 parts: J1 pin 4 (the one layer, 5.000, 0.000 mm) and J1 pin 5 (the one layer, 7.000, 0.000 mm) are not joined",
                    ),
                    (
                        "short",
                        True,
                        "A at J1 pin 1 (the one layer, 1.000, 0.000 mm) and B at J1 pin 2 (the one layer, -1.000, 0.000 mm) are joined",
                    ),
                    ("missing", True, "no copper lies under J1 pin 3 (the one layer, 0.000, 0.000 mm), of C"),
                ],
            )
            self.assertEqual(told.findings[2].places, [(0, 0, 1)])

    # Another arc over the first, half a micrometre from it, and a pad as near as one bound alone reaches.
    FACING = [*ARC, "X1000000Y2200500D02*", "G02X-1000000Y2200500I-1000000J0D01*"]
    PAD = [*ARC, "D11*", "X0Y1600200D03*"]

    def test_undecided(self):
        """Copper half a micrometre from copper: by names, by parts of a name, by a point."""
        for program in self.over_both():
            for copper, spot, commands in (
                (self.FACING, (1, 2.2005), "command 8 and top.gbr command 11"),
                (self.PAD, (0, 1.6002), "command 8 and top.gbr command 11"),
            ):
                for name, kind, words in (
                    ("B", "short", "A at J1 pin 1 "),
                    ("A", "open", "A may be in 2 parts: J1 pin 1 "),
                ):
                    told = self.bounded(
                        program,
                        copper,
                        [record("A", "J1.1", 1, 0), record("A", "J1.2", -1, 0), record(name, "J2.1", *spot)],
                    )
                    self.assertEqual((told.status, len(told.findings)), (11, 1), told)
                    its, places = told.findings[0], told.findings[0].places
                    said = statement(its.what)
                    self.assertEqual((its.kind, its.is_sure, said.startswith(words)), (kind, False, True), said)
                    self.assertIn(
                        f"only if the copper is the most that the files can mean, by top.gbr {commands} at the one layer, 0.0",
                        said,
                    )
                    self.assertTrue(abs(places[0][0]) < 10**6 and abs(places[0][1] - 11_000_000) < 10**6, places)
            told = self.bounded(program, self.ARC, [record("A", "J1.1", 0, 1.1), record("A", "J1.2", 1, 0)])
            self.assertEqual((told.status, [it[:2] for it in told.findings]), (11, [("missing", False)]))

    def test_a_micrometre_is_enough(self):
        """A micrometre apart is apart, a micrometre into each other is joined, whichever way it stands."""
        rows = [
            ("X0Y1601000D03*", 1.601, 0),
            ("X0Y1599000D03*", 1.599, 1),
            ("X0Y399000D03*", 0.399, 0),
            ("X0Y401000D03*", 0.401, 1),
        ]
        for program in self.over_both():
            for flash_word, y, status in rows:
                told = self.bounded(
                    program, [*self.ARC, "D11*", flash_word], [record("A", "J1.1", 1, 0), record("B", "J2.1", 0, y)]
                )
                self.assertEqual(
                    (told.status, [it[:2] for it in told.findings]), (status, [("short", True)] * status), flash_word
                )

    def test_unnamed_points(self):
        """A pin without net on a known short is one more short in doubt; two such pins are none."""
        pad = self.PAD
        for program in self.over_both():
            told = self.bounded(
                program, pad, [record("A", "J1.1", 1, 0), record("B", "J1.2", -1, 0), record("N/C", "J2.1", 0, 1.6002)]
            )
            self.assertEqual((told.status, [it[:2] for it in told.findings]), (1, [("short", True), ("short", False)]))
            told = self.bounded(program, pad, [record("N/C", "J1.1", 1, 0), record("N/C", "J2.1", 0, 1.6002)])
            self.assertEqual(
                (told.status, told.findings, sentences.line(told.answer)[:18]), (12, [], "NOTHING WAS JUDGED")
            )

    def test_left_out(self):
        """What the lower bound does not have is told, and makes its points undecided."""
        thin = [*HEAD, "%ADD10C,0.0002*%", "D10*", "X1000000Y0D02*", "G03X-1000000Y0I-1000000J0D01*"]
        for program in self.over_both():
            told = self.bounded(program, thin, [record("A", "J1.1", 1, 0), record("A", "J1.2", -1, 0)])
            self.assertEqual((told.status, told.left_out), (11, ["top.gbr: an arc at command 7, line 7"]))

    # Files that the program flattens: what is passed on and what is replaced by whole pieces comes out as the same solids.
    WHOLE = [
        (
            "profile",
            [
                "%ADD10C,1.0*%",
                "%ADD11R,0.5X0.4*%",
                "D10*",
                "X1000000Y0D02*",
                "Y2000000D01*",
                "D11*",
                "X5Y7D03*",
                "D10*",
                "X9Y9D03*",
                *made.region((0, 0), (3, 0), (3, 4)),
            ],
        ),
        ("round macro", ["%AMA*", "1,1,0.4,0,0*%", "%ADD10A*%", "D10*", "X1000000Y-3D03*"]),
        ("inches", ["%ADD10C,0.01*%", "D10*", "X1000000Y0D02*", "Y2000000D01*"]),
        ("steps", ["%ADD10O,1.0X0.4*%", "%SRX3Y2I2.0J3.0*%", "D10*", "X0Y0D03*", "%SR*%", "X5Y5D03*"]),
        (
            "turned macros",
            [
                "%AMA*",
                "21,1,0.4,0.2,0.1,0,90*",
                "4,1,3,0,0,.1,0,.1,.1,0,0,180*",
                "20,1,.2,0,0,.3,0,0*",
                "20,1,.2,.3,0,0,0,90*",
                "20,1,.2,0,0,0,.3,180*",
                "20,1,.2,0,.3,0,0,0*",
                "1,1,$1+$1,0,0*%",
                "%ADD10A,0.1*%",
                "D10*",
                "X5Y6D03*",
            ],
        ),
    ]

    def test_as_flattened(self):
        for program in self.over_both():
            for name, lines in self.WHOLE[:2] if program == STAND_IN else self.WHOLE:
                text = "\n".join([*HEAD, *lines, "M02*", ""])
                text = text.replace("%FSLAX46Y46*%\n%MOMM*%", "%FSLAX26Y26*%\n%MOIN*%") if name == "inches" else text
                copper, flat = Copper(text), []
                for number, each in enumerate([text, *(side.file_text() for side in copper.sides)]):
                    self.write(f"{name}/{number}.gbr", each)
                    status, out, notes = self.run_words(
                        [program, "flatten", f"{number}.gbr"], self.path(name), environment={"STAND_IN_LACKS": ""}
                    )
                    self.assertEqual(status, 0, (name, notes))
                    flat.append(out)
                self.assertEqual((flat[1], flat[2]), (flat[0], flat[0]), name)

    def test_no_bounds(self):
        """Refused as before, with why there are no bounds; or nothing to say."""
        points = [record("A", "J1.1", 1, 0)]
        for program in self.over_both():
            for line in ("%ADD12C,1X.2X.2*%\nD12*\nX5Y5D03*", "G36*"):
                runs, told = self.judged(program, [*self.ARC, line], points)
                answer = two_bounds.bounded(runs, told)
                why = (
                    "a hole that is not round at command 12"
                    if line != "G36*"
                    else "a region without an end at command 11"
                )
                self.assertEqual(
                    (answer.status, sentences.line(answer.answer)), (3, f"{told.line}; no bounds: top.gbr: {why}")
                )
            self.assertEqual(self.bounded(program, self.ARC, []).answer[:3], (12, "nothing", NO_POINTS))
            self.assertIsNone(
                two_bounds.bounded(*self.judged(program, [*HEAD, "%ADD10C,1.0*%", *flash(10, (1, 0))], points))
            )

    def test_names_with_dots(self):
        """Files outside the manifest's folder: each side has its own copy, and the user's files stay."""
        self.write("files/top.gbr", "\n".join([*self.FACING, "M02*", ""]))
        self.write("files/n.ipc", netlist(record("A", "J1.1", 1, 0), record("B", "J2.1", 1, 2.2005)))
        self.write("board/m.json", manifest(["../files/top.gbr"]).replace("n.ipc", "../files/n.ipc"))
        before = self.read("files/top.gbr")
        status, out, _ = self.show("board")
        self.assertEqual(
            (status, NOT_KNOWN in out, self.read("files/top.gbr"), len(os.listdir(self.path("files")))),
            (11, True, before, 2),
        )

    def test_whole_paths(self):
        """A file by its whole path is never written: no bounds, and the file stays."""
        self.write("files/top.gbr", "\n".join([*self.ARC, "M02*", ""]))
        self.write("board/n.ipc", netlist(record("A", "J1.1", 1, 0)))
        self.write("board/m.json", manifest([self.path("files/top.gbr")]))
        before = self.read("files/top.gbr")
        status, out, _ = self.show("board")
        self.assertEqual(
            (status, "that is not known: a copper file is named by its whole path" in out, self.read("files/top.gbr")),
            (3, True, before),
            out,
        )

    def test_shown(self):
        self.write("board/m.json", manifest())
        self.write("board/top.gbr", "\n".join([*self.ARC, "M02*", ""]))
        self.write("board/n.ipc", netlist(record("A", "J1.1", 0, 1.1), record("A", "J1.2", 1, 0)))
        before = {name: os.stat(self.path("board", name)).st_mtime_ns for name in os.listdir(self.path("board"))}
        status, out, _ = self.show("board", "--explain", "--json", "b.json")
        self.assertEqual((status, out.splitlines()[0]), (11, f"UNDECIDED board: 1 fault is possible. {NOT_KNOWN}"))
        self.assertIn("explained: bounds: lower differs, opens 0, shorts 0, missing 1; upper agrees\n", out)
        its = json.loads(self.read("b.json"))["boards"][0]["bounds"]
        self.assertEqual((its["lower"], its["upper"]), ("differs, opens 0, shorts 0, missing 1", "agrees"))
        self.assertNotRegex(self.show("board", "--all")[1], r"\b(lower|upper|bounds?)\b")
        self.assertIn(
            "  undecided missing-0: copper lies under J1 pin 1 (the one layer, 0.000, 1.100 mm), of A, only if the copper is the most that the files can mean",
            out,
        )
        self.assertEqual(
            {name: os.stat(self.path("board", name)).st_mtime_ns for name in os.listdir(self.path("board"))}, before
        )


if __name__ == "__main__":
    unittest.main()
