"""Bounds that the program takes: what `show` asks of `between` where it reads all copper outside the profile, and what it says then."""
import os
import re
import subprocess
import unittest
from unittest import mock

from boardnet_show.base.progress import Progress
from boardnet_show.base.statuses import Stop
from boardnet_show.formats.manifest import of_text
from boardnet_show.geometry.exact import Refused
from boardnet_show.intake.package import Package
from boardnet_show.judging import between_command, judged, two_bounds
from boardnet_show.judging.net_ties import Ties, tie
from boardnet_show.judging.program import Answer, Program
from boardnet_show.output.sentences.answers import bare_line, line as line_of
from tests.fixtures import made
from tests.fixtures.made import STAND_IN, drill, flash, manifest, netlist, record

HEAD = [
    "%FSLAX46Y46*%",
    "%MOMM*%",
    "G75*",
    "%ADD10C,0.2*%",
    "%ADD11C,1.0*%",
    "%ADD12R,1.0X0.4*%",
    "%ADD13C,0.0002*%",
    "D10*",
]
HALF = ["X1000000Y0D02*", "G03X-1000000Y0I-1000000J0D01*", "G01*"]
LINES = [
    "%AMA*",
    "20,1,0.2,1,0,2,1,0*",
    "20,1,$1+$1,1,-2,0,-3,90*",
    "1,1,$1,-1,2,270*",
    "20,1,0,0,0,1,2,0*",
    "20,1,0.2,-2,1,-3,0,0*%",
    "%ADD20A,0.1*%",
]
ROUNDED = [
    "G36*",
    "X500000Y0D02*",
    "X1500000Y0D01*",
    "G03X2000000Y500000I0J500000D01*",
    "G01X2000000Y1000000D01*",
    "G03X1500000Y1500000I-500000J0D01*",
    "G01X500000Y1500000D01*",
    "G02X0Y1000000I-500000J0D01*",
    "G01X0Y500000D01*",
    "G03X500000Y0I500000J0D01*",
    "G01*",
    "X7000000Y0D02*",
    "X8000000Y0D01*",
    "X8000000Y1000000D01*",
    "X7000000Y0D01*",
    "G37*",
]
UNEVEN = [
    "G36*",
    "X500000Y0D02*",
    "X1500000Y0D01*",
    "G03X2000000Y500003I2J499999D01*",
    "G01X2000000Y1500000D01*",
    "G02X1500001Y2000000I0J500000D01*",
    "G01X500000Y2000000D01*",
    "X500000Y0D01*",
    "G37*",
]
PAD = [
    "%AMRoundRect*",
    "0 by thirty degrees*",
    "4,1,4,$2,$3,$4,$5,$6,$7,$8,$9,$2,$3,0*",
    *(f"1,1,$1+$1,${k},${k + 1}*" for k in (2, 4, 6, 8)),
    *(f"20,1,$1+$1,${k},${k + 1},${m},${m + 1},0*" for k, m in ((2, 4), (4, 6), (6, 8))),
    "20,1,$1+$1,$8,$9,$2,$3,0*%",
    "%ADD20RoundRect,0.25X-0.433X-0.583X0.733X0.083X0.433X0.583X-0.733X-0.083*%",
]
# Pads of layout tools by degrees: of KiCad by a parameter, of Altium by a number.
TURNED = [
    "%AMRotRect*",
    "0 Rectangle, with rotation*",
    "21,1,$1,$2,0,0,$3*%",
    "%AMOutline4P*",
    "4,1,4,$1,$2,$3,$4,$5,$6,$7,$8,$1,$2,$9*%",
    "%AMROUNDEDRECT*",
    "21,1,0.6,0.4,0,0,45.0*",
    "21,1,0.4,0.6,0,0,45.0*",
    *(f"1,1,0.2,{x},{y}*" for x, y in ((0, 0.2828427), (-0.2828427, 0), (0, -0.2828427), (0.2828427, 0))),
    "%",
    "%ADD20RotRect,2.0X0.4X30*%",
    "%ADD21RotRect,2.0X0.4X90*%",
    "%ADD22Outline4P,-1X-0.5X1X-0.5X0.7X0.5X-0.7X0.5X-112.5*%",
    "%ADD23ROUNDEDRECT*%",
]
# Outlines that are not convex, by degrees.
DART, SLOTTED = "0,0,2,0,2,2,1,1,0,2,0,0", "0,0,3,0,3,2,2,2,2,1,1,1,1,2,0,2,0,0"
BENT = [
    "%AMDART*",
    f"4,1,5,{DART},$1*%",
    "%AMSLOTTED*",
    "1,1,0.4,-1,0*",
    f"4,1,8,{SLOTTED},$1*",
    "21,1,1,0.2,-1.2,0,$1*%",
    "%AMBOTH*",
    f"4,1,5,{DART},$1*",
    "4,1,6,-1,-1,-1,1,-.5,1,-.5,-.5,1,-.5,1,-1,-1,-1,$1+360*%",
    "%ADD20DART,30*%",
    "%ADD21SLOTTED,-100.5*%",
    "%ADD22BOTH,45*%",
]
# Octagons of Eagle, as wide between sides as the parameter.
EAGLE = ["%AMOC8*", "5,1,8,0,0,1.08239X$1,22.5*", "%"]
A, B = record("A", "J1.1", 1, 0), record("A", "J1.2", -1, 0)


NONE = "opens 0\nshorts 0\nmissing 0\n"


def decided(word, certain=NONE, undecided=NONE, heads="{heads}points 2\n"):
    """An answer of `between`, which says a word and these findings of the boards that it was asked about."""
    return Answer(
        int(word != "agrees"),
        f"boardnet-between 1\nreal 1\n{heads}certain\n{certain}undecided\n{undecided}{word}\n".encode(),
        "",
    )


class Recorder(Program):
    """The stand-in, with an answer of `between` that is given; `texts` are the files that it was asked about, whose boards are in the
    answer's text in the place of `{heads}`."""

    def __init__(self, answer=None):
        super().__init__(STAND_IN, Progress(quiet=True))
        self.given, self.texts = answer, None

    def between(self, package, *names):
        self.texts = [package.read(name).decode() for name in (package.name, *names)]
        if b"{heads}" not in self.given.out:
            return self.given
        heads = "".join(self.head(package, *it) for it in zip(("lower", "upper"), names))
        return self.given._replace(out=self.given.out.replace(b"{heads}", heads.encode()))

    def head(self, package, side, name):
        text = self.run(package, "check", name).out.decode()
        return (
            " ".join(
                [
                    side,
                    *(
                        re.search(f"^{word} (.*)$", text, re.M).group(1)
                        for word in ("pieces", "nets", "opens", "shorts", "missing")
                    ),
                ]
            )
            + "\n"
        )


class Asked(made.Case):
    def told(self, program, lines, records, files=(), ties=Ties(), is_finer=False):
        names = {
            "m.json": manifest(),
            "top.gbr": "\n".join([*HEAD, *lines, "M02*", ""]),
            "n.ipc": netlist(*records),
            **dict(files),
        }
        for name, text in names.items():
            self.write(f"board/{name}", text)
        self.package = Package(of_text(names["m.json"].encode()), self.path("board"))
        with mock.patch.dict(os.environ, {"STAND_IN_LACKS": ""}):
            answer = judged.judge(program, self.package)
            self.bounded = two_bounds.bounded(program, answer, ties)
            return between_command.answer_of_between(program, answer, self.bounded, ties, is_finer)

    def test_counts(self):
        """A line for each piece of the board, in its order: copies of arcs, arcs without copper below, figures, holes."""
        program = Recorder(Answer(3, b"", "no"))
        lines = [
            "D11*",
            "X9000000Y0D03*",
            "%SRX2Y1I5.0J0*%",
            "D10*",
            *HALF,
            "D12*",
            "X0Y5000000D03*",
            "%SR*%",
            *made.region((0, 7), (1, 7), (0, 8)),
            "D13*",
            *HALF,
            "D10*",
            "X0Y9000000D02*",
            "G02X0Y9000000I0J500000D01*",
        ]
        more = {
            "m.json": manifest(["top.gbr", "bot.gbr", "top.gbr"], [("d.drl", 1, 3)]),
            "bot.gbr": made.gerber(*flash(10, (0, 0))),
            "d.drl": drill((0, 0), (3, 3)),
        }
        self.told(program, lines, [A, B], more)
        lower, upper = ([self.links(side, number) for number in (14, 27, 31)] for side in ("lower", "upper"))
        self.assertEqual((lower[1], upper[1] > 8, lower[0] > 8, lower[2] > 8), (0, True, True, True))
        half, thin, whole = (f"{one} {other}" for one, other in zip(lower, upper))
        top = ["1 1", half, "1 1", half, "1 1", "1 1", thin, whole]
        self.assertEqual(program.texts[3], "\n".join(["boardnet-bounds 1", *top, "1 1", *top, "1 1", "1 1", ""]))
        self.assertEqual(
            [program.texts[0], *program.texts[1:3]],
            [
                of_text(more["m.json"].encode()).json_text(),
                *(
                    of_text(more["m.json"].replace("top.gbr", f"{side}.gbr").encode()).json_text()
                    for side in ("lower", "upper")
                ),
            ],
        )

    def test_counts_of_macros(self):
        """A line for each primitive that has copper, in their order; thin lines have nothing below."""
        macro = [
            "%AMA*",
            "1,1,0.4,1,0*",
            "20,1,0.2,0,0,0.3,0.4,90*",
            "20,1,0,0,0,1,1,0*",
            "21,1,0.4,0.2,0,0,0*",
            "20,1,0.0000002,0,0,0.3,0.5,0*",
            "20,1,.2,1,0,0,0,0*%",
            "%ADD20A*%",
            "%AMB*",
            "1,1,0,0,0*%",
            "%ADD21B*%",
        ]
        program = Recorder(Answer(3, b"", "no"))
        self.told(
            program,
            [
                *macro,
                *HALF,
                "D20*",
                "%SRX2Y1I9.0J0*%",
                "X0Y0D03*",
                "%SR*%",
                "D21*",
                "X1000000Y1000000D03*",
                "D11*",
                "X9000000Y9000000D03*",
            ],
            [A, B],
        )
        half, flash = " ".join(str(self.links(side, 21)) for side in ("lower", "upper")), [
            "1 1",
            "1 1",
            "1 1",
            "0 1",
            "1 1",
        ]
        self.assertEqual(program.texts[3], "\n".join(["boardnet-bounds 1", half, *flash, *flash, "1 1", ""]))

    def test_counts_of_turned_pads(self):
        """A line for each primitive, turned by numbers or by parameters; of thin ones nothing is below."""
        thin, place = [
            "%AMTHIN*",
            "4,1,4,0,0,$3,0,$3,$3,0,$3,0,0,$1*",
            "20,1,0.2,0,0,1,0,-$1*",
            "1,1,0.2,0,0,$1*%",
            "%ADD24THIN,30X0X0.0000001*%",
        ], "X5000000Y5000000D03*"
        program = Recorder(Answer(3, b"", "no"))
        self.told(
            program, [*HALF, *TURNED, *thin, *(word for k in range(20, 25) for word in (f"D{k}*", place))], [A, B]
        )
        half, *pads = program.texts[3].split("\n")[1:-1]
        self.assertEqual(pads, [*["1 1"] * 9, "0 1", "1 1", "1 1"])

    def test_counts_of_turned_outlines(self):
        """A line for each primitive: above there is an area, and a draw along each edge of an outline that is not convex."""
        macro = [
            "%AMDART*",
            "1,1,0.4,1,0*",
            f"4,1,5,{DART},$1*",
            "21,1,1,0.2,0,0,$1*",
            "4,1,3,0,0,1,0,1,1,0,0,$1*%",
            "%ADD20DART,30*%",
            "%ADD21DART,90*%",
        ]
        program, place = Recorder(Answer(3, b"", "no")), "X5000000Y5000000D03*"
        self.told(program, [*HALF, *macro, "D20*", "%SRX2Y1I9.0J0*%", place, "%SR*%", "D21*", place], [A, B])
        half, *pads = program.texts[3].split("\n")[1:-1]
        self.assertEqual(pads, [*["1 1", "1 6", "1 1", "1 1"] * 2, *["1 1"] * 4])

    def test_counts_of_regions(self):
        """A line for each contour of a region, which has one area below, or none where it is small."""
        bent = ["X2000000Y0D02*", "X3000000Y0D01*", "X3000000Y1000000D01*", "G03X2000000Y0I0J-1000000D01*", "G01*"]
        small = ["X7000000Y0D02*", "X7000001Y0D01*", "G03X7000000Y1I-1J0D01*", "G01X7000000Y0D01*"]
        square = ["X7000000Y0D02*", *(f"X{x}000000Y{y}000000D01*" for x, y in ((8, 0), (8, 1), (7, 0)))]
        program = Recorder(Answer(3, b"", "no"))
        self.told(
            program, [*HALF, "G36*", *square, *bent, *small, *square, "G37*", "D11*", "X9000000Y9000000D03*"], [A, B]
        )
        (_, (low, high), (least, few), _) = two_bounds.of_package(
            Package(of_text(manifest().encode()), self.path("board")), True
        ).rows["top.gbr"][30]
        self.assertEqual((low, high > 9, least, few > 2), (1, True, 0, True))
        half = " ".join(str(self.links(side, 10)) for side in ("lower", "upper"))
        self.assertEqual(
            program.texts[3],
            "\n".join(["boardnet-bounds 1", half, "1 1", f"{low} {high}", f"{least} {few}", "1 1", "1 1", ""]),
        )

    def test_counts_of_holes(self):
        """A line for each circle with a hole, which is a draw once round it; of a thin one nothing is below."""
        holes = [
            "%ADD14C,3X1*%",
            "%ADD15C,0.000001X0.0000006*%",
            "D14*",
            "%SRX2Y1I9.0J0*%",
            "X0Y5000000D03*",
            "%SR*%",
            "D15*",
            "X0Y0D03*",
        ]
        program = Recorder(Answer(3, b"", "no"))
        self.told(program, [*HALF, *holes, "D14*", "X0Y9000000D03*"], [A, B])
        half, first, copy, thin, last = program.texts[3].split("\n")[1:-1]
        self.assertEqual((first, copy), (last, last))
        self.assertEqual(
            [thin, last],
            [" ".join(str(self.links(side, number)) for side in ("lower", "upper")) for number in (19, 21)],
        )
        self.assertEqual(thin.split(" ")[0], "0")

    def test_counts_of_odd_sizes(self):
        """A line for each flash and draw of an odd size, which has one figure on both sides, or none below; a definition alone is no piece."""
        odd = ["%ADD14C,0.0000003*%", "%ADD15O,0.0000001X0.4*%", "%ADD16R,1X0.4000001*%"]
        program = Recorder(Answer(3, b"", "no"))
        self.told(
            program,
            [
                *HALF,
                *odd,
                "D15*",
                "%SRX2Y1I9.0J0*%",
                "X0Y5000000D03*",
                "%SR*%",
                "D16*",
                "X0Y5000000D03*",
                "D14*",
                "X9000000Y9000000D01*",
            ],
            [A, B],
        )
        self.assertEqual(program.texts[3].split("\n")[2:-1], ["0 1", "0 1", "1 1", "1 1"])

    def test_counts_of_odd_macros(self):
        """So for each primitive of an odd size, by quarter turns, and for a disc about the origin by any."""
        macro = [
            "%AMA*",
            "1,1,0.4000001,1,0*",
            "1,1,0.0000001,2,0,90*",
            "1,1,0.4000001,0,0,30*",
            "21,1,1,0.4000001,0,0,90*",
            "21,1,1.0000001,0.0000001,0,0,0*",
            "20,1,0.2000001,0,0,1,0,0*",
            "20,1,0.2000001,0,0,0.3,0.4,270*%",
            "%ADD20A*%",
            "D20*",
            "X5000000Y5000000D03*",
        ]
        program = Recorder(Answer(3, b"", "no"))
        self.told(program, [*HALF, *macro], [A, B])
        self.assertEqual(program.texts[3].split("\n")[2:-1], ["1 1", "0 1", "1 1", "1 1", "0 1", "1 1", "1 1"])

    def test_counts_of_frames(self):
        """A line for each rectangle with a hole, a region, of which there is one area below, or none where it is thin."""
        holes = [
            "%ADD14R,3X2X1*%",
            "%ADD15R,1X1X0.99*%",
            "D14*",
            "%SRX2Y1I9.0J0*%",
            "X0Y5000000D03*",
            "%SR*%",
            "D15*",
            "X0Y0D03*",
        ]
        program = Recorder(Answer(3, b"", "no"))
        self.told(program, [*HALF, *holes], [A, B])
        half, first, copy, thin = program.texts[3].split("\n")[1:-1]
        self.assertEqual((first, copy, first[:2], thin[:2]), (copy, first, "1 ", "0 "))

    def test_counts_of_other_holes(self):
        """A line for each other shape with a hole, which has one figure above; below draws, an area, or none where it is thin. What is not whole in u is not asked."""
        holes = [
            "%ADD14C,3X1.0000001*%",
            "%ADD15R,3.0000001X2X1*%",
            "%ADD16O,3X2X1.0000001*%",
            "%ADD17C,1X0.9999999*%",
            "%ADD18O,3X2X1.00000001*%",
        ]
        program = Recorder(Answer(3, b"", "no"))
        self.told(
            program,
            [*HALF, *holes[:4], *(word for k in range(14, 18) for word in (f"D{k}*", f"X0Y{k}000000D03*"))],
            [A, B],
        )
        circle, rectangle, obround, thin = (
            tuple(map(int, line.split(" "))) for line in program.texts[3].split("\n")[2:-1]
        )
        self.assertEqual(
            (circle[0] > 9, circle[1], rectangle, obround[0] > 20, obround[1], thin), (True, 1, (1, 1), True, 1, (0, 1))
        )
        program = Recorder(Answer(3, b"", "no"))
        self.told(program, [*HALF, *holes[4:], "D18*", "X0Y0D03*"], [A, B])
        self.assertIsNone(program.texts)

    BENT = ["G36*", "X0Y0D02*", "X2000000Y0D01*", "G03X0Y2000000I-2000000J0D01*", "G01X0Y0D01*", "G37*"]

    def test_smaller_areas(self):
        """Of regions with arcs the boards by smaller areas are shown where they find the same, and `between` finds what they do."""
        joined = "opens 0\nshorts 1\nshort 2\npoint 1 1 5000000 5000000 A\npoint 2 1 5000000 6000000 B\nmissing 0\n"
        for names, answer in (("AA", decided("agrees")), ("AB", decided("differs", joined))):
            records = [record(name, f"J1.{k}", 0.5, 0.5 + k * 0.1) for k, name in enumerate(names)]
            told = self.told(Recorder(answer), self.BENT, records)
            self.assertEqual(
                (told.status, "proved" in bare_line(told.answer), self.corners_below() < 12),
                (answer.status, True, True),
            )
            told = self.told(Recorder(answer), self.BENT, records, is_finer=True)
            self.assertEqual((told, self.corners_below() > 20), (self.bounded, True))
        for names, answer in (
            ("AA", decided("undecided")),
            ("AB", decided("differs")),
            ("AB", decided("differs", joined.replace("6000000 B", "7000000 B"))),
            ("AB", decided("differs", NONE, joined)),
        ):
            with self.assertRaisesRegex(Stop, "^`between` "):
                self.told(
                    Recorder(answer),
                    self.BENT,
                    [record(name, f"J1.{k}", 0.5, 0.5 + k * 0.1) for k, name in enumerate(names)],
                )

    def test_findings_of_smaller_areas_alone(self):
        """A point near an arc, which the smaller areas miss: the finer board is shown, and nothing is said to be proved."""
        near = "opens 0\nshorts 0\nmissing 1\nbare 2 1 14000000 14000000 A\n"
        told = self.told(
            Recorder(decided("undecided", NONE, near)),
            self.BENT,
            [record("A", "J1.1", 0.5, 0.5), record("A", "J1.2", 1.4, 1.4)],
        )
        self.assertEqual((told, told.status, self.corners_below() > 20), (self.bounded, 0, True))

    def corners_below(self):
        """Of the area of the lower board that is shown."""
        return self.package.sides.packages[0].read("top.gbr").count(b"D01*")

    def links(self, side, number):
        """How many draws of a side are of a command of the top."""
        copper = two_bounds.sides_of(Package(None, self.path("board")), "top.gbr")
        its = copper.sides[side == "upper"]
        return sum(line.endswith("D01*") and source == number for line, source in zip(its.lines, its.sources))

    def test_said(self):
        """`proved` is said where the program takes the bounds and finds what the reports do, and only then."""
        plain = "agrees, between two bounds"
        self.assertEqual(
            bare_line(self.told(Recorder(decided("agrees")), HALF, [A, B]).answer), "agrees, between two bounds, proved"
        )
        for status in (2, 4, 6):
            told = self.told(Recorder(Answer(status, b"", "")), HALF, [A, B])
            self.assertEqual((told, bare_line(told.answer)), (self.bounded, plain))
        told = self.told(
            Recorder(Answer(3, b"", "top.gbr: Gerber 39 OffsetsAmiss at command 10, byte 9")), HALF, [A, B]
        )
        self.assertEqual(
            (bare_line(told.answer), told.notes),
            (plain, ("`between` was asked, and stopped: top.gbr: Gerber 39 OffsetsAmiss at command 10, byte 9",)),
        )
        near = [record("A", "J1.1", 0, 1.1), B]
        told = self.told(
            Recorder(decided("undecided", NONE, "opens 0\nshorts 0\nmissing 1\nbare 1 1 0 11000000 A\n")), HALF, near
        )
        self.assertEqual(
            (told.status, bare_line(told.answer)), (11, "undecided, between two bounds, proved: 1 finding undecided")
        )

    def test_other_findings(self):
        """What `between` finds has to be what the reports on both boards find: words, counts, names and places."""
        bare, heads = "opens 0\nshorts 0\nmissing 1\nbare 1 1 0 11000000 A\n", "lower 1 1 0 0 0\nupper 1 1 0 0 0\n"
        near = [record("A", "J1.1", 0, 1.1), B]
        for records, answer in (
            ([A, B], decided("differs")),
            ([A, B], decided("agrees", heads=heads)),
            ([A, B], decided("agrees", heads="")),
            ([A, B], Answer(0, b"agrees\n", "")),
            (near, decided("undecided")),
            (near, decided("undecided", bare)),
            (near, decided("differs", bare)),
            (near, decided("agrees", NONE, bare)),
            (near, decided("undecided", NONE, bare.replace(" A", " B"))),
            (near, decided("undecided", NONE, bare.replace("1100", "1200"))),
        ):
            with self.subTest(answer.out), self.assertRaisesRegex(Stop, "^`between` "):
                self.told(Recorder(answer), HALF, records)

    def test_ties(self):
        """Ties change no check: the shorts of `between` are those of the reports, and count where they are not tied."""
        ties, records = Ties([tie("A=C", "--tie")]), [record("C", "J1.1", 1, 0), B]
        joined = "opens 0\nshorts 1\nshort 2\npoint 1 1 10000000 0 C\npoint 2 1 -10000000 0 A\nmissing 0\n"
        told = self.told(Recorder(decided("differs", joined)), HALF, records, ties=ties)
        self.assertEqual(
            (told.status, bare_line(told.answer)), (0, "agrees, with 1 declared tie, between two bounds, proved")
        )
        told = self.told(
            Recorder(decided("differs", joined)), HALF, records, ties=Ties([tie("A=C", "--tie"), tie("A=D", "--tie")])
        )
        self.assertEqual(
            (told.status, bare_line(told.answer)),
            (1, "differs, with 1 declared tie, between two bounds, proved: 1 finding certain"),
        )
        for answer in (
            decided("differs"),
            decided("agrees"),
            decided("undecided", NONE, joined),
            decided("differs", joined.replace(" C", " E")),
        ):
            with self.subTest(answer.out), self.assertRaisesRegex(Stop, "^`between` "):
                self.told(Recorder(answer), HALF, records, ties=ties)

    def test_a_bound_that_is_not_taken(self):
        """Then nothing holds of the board: neither what both boards say nor what stands beside it."""
        for side in ("below", "above"):
            line = f"m.json: file 0, command 10, copy 0: not bounded {side}"
            told = self.told(Recorder(Answer(3, b"", line)), HALF, [A, B])
            self.assertEqual((self.bounded.status, told.status, told.findings, self.package.between), (0, 3, [], None))
            self.assertEqual(
                line_of(told.answer),
                f"top.gbr: Gerber 11 Arc at command 10, byte 0; no bounds: `between` does not take them: {line}",
            )
            with self.assertRaisesRegex(Refused, "not bounded"):
                two_bounds.judge(Recorder(), self.package, Ties())

    def test_not_asked(self):
        """Where other copper is outside the profile, in any file; and where there is nothing to ask."""
        rows = [
            ["%ADD14C,0.00000035*%"],
            ["%ADD14C,0.20000015*%", "D14*", "X0Y5000000D02*", "X1Y5000001D01*"],
            ["%ADD14C,0.20000015*%", "D14*", *HALF],
            ["%LPC*%", "D11*", "X9000000Y0D03*"],
            ["D12*", "X0Y5000000D02*", "X1Y5000001D01*"],
            ["%LR90*%", "D11*", "X9000000Y0D03*"],
            ["X0Y0D03*", "X5Y5*"],
            ["%AMA*", "20,1,0.2,0,0,0.3,0.4,30*%", "%ADD14A*%", "D14*", "X0Y5000000D03*"],
            ["%AMA*", "5,1,7,0.1,0,0.200000000001,30*%", "%ADD14A*%", "D14*", "X0Y5000000D03*"],
            ["%AMA*", "4,1,4,0,0,1,1,1,0,0,1,0,0,30*%", "%ADD14A*%", "D14*", "X0Y5000000D03*"],
            ["%AMA*", "21,1,1,0.0000003,0,0,30*%", "%ADD14A*%", "D14*", "X0Y5000000D03*"],
            ["%AMA*", "1,1,0.2,0,0*", "1,0,0.1,0,0*%", "%ADD14A*%", "D14*", "X0Y5000000D03*"],
            ["%AMA*", "1,1,0.2,0,0*%", "%ADD14A*%", "D14*", "%LS2*%", "X0Y5000000D03*"],
            ["%ADD14P,1X4X0X0.2*%", "D14*", "X0Y5000000D03*"],
            ["%ADD14C,0.00000101X0.0000008*%", "D14*", "X0Y5000000D03*"],
            ["%ABD15*%", "D11*", "X9000000Y0D03*", "%AB*%", "D15*", "X0Y0D03*"],
        ]
        for lines in rows:
            program = Recorder()
            self.assertEqual((self.told(program, [*HALF, *lines], [A, B]), program.texts), (self.bounded, None), lines)
        program, other = Recorder(), "\n".join([*HEAD, *HALF, *rows[0], "M02*", ""])
        self.assertEqual(
            (
                self.told(program, HALF, [A, B], {"m.json": manifest(["top.gbr", "bot.gbr"]), "bot.gbr": other}),
                program.texts,
            ),
            (self.bounded, None),
        )
        self.assertEqual((self.told(program, HALF, []), program.texts), (self.bounded, None))


STATUSES = {"agrees": 0, "differs": 1, "undecided": 11}


def having_between():
    """The built program, where it has the command."""
    path = made.built()
    if (
        not path
        or subprocess.run(
            [path, "between", *"abcd"], stdout=subprocess.DEVNULL, stderr=subprocess.DEVNULL, stdin=subprocess.DEVNULL
        ).returncode
        == 2
    ):
        raise unittest.SkipTest("there is no built program with `between`; BOARDNET names one")
    return path


class Taken(made.Case):
    """Rows: lines, records, and what `show` says, by the program itself."""

    C = record("B", "J2.1", 9, 0)
    ROWS = [
        ("both ways", [*HALF, "G02X1000000Y0I1000000J0D01*"], [A, B], "agrees"),
        ("a word of its own", ["G02*", "X1000000Y0D02*", "X-1000000Y0I-1000000J0D01*"], [A, B], "agrees"),
        ("whole turns", ["X1000000Y0D02*", "G03X1000000Y0I-1000000J0D01*", "G02I-1000000J0D01*"], [A, B], "agrees"),
        (
            "regions of one arc and of two",
            [
                "G36*",
                *("X2000000Y0D02*", "G03I-2000000J0D01*"),
                *("X7000000Y0D02*", "G03X5000000Y0I-1000000J0D01*", "X7000000Y0I1000000J0D01*"),
                *("G01*", "G37*"),
            ],
            [A, B, record("C", "J3.1", 5.5, 0), record("C", "J3.2", 6.5, 0)],
            "agrees",
        ),
        (
            "a quarter",
            [
                "G74*",
                "X1000000Y0D02*",
                "G02X0Y-1000000I1000000J0D01*",
                "G02X-1000000Y0I0J1000000D01*",
                "G02X-1000000Y0I5J5D01*",
            ],
            [A, B],
            "agrees",
        ),
        (
            "two distances",
            ["X1000000Y0D02*", "G03X-1000001Y3I-1000000J0D01*", "G02X1000000Y0I1000001J-3D01*"],
            [A, B],
            "agrees",
        ),
        ("past a half turn, two distances", ["X1000000Y0D02*", "G03X0Y-1000002I-1000000J0D01*"], [A, B], "agrees"),
        (
            "in one direction, two distances",
            ["X1000000Y0D02*", "G03X1000001Y0I-1000000J0D01*"],
            [A, record("A", "J1.2", 1.05, 0)],
            "undecided",
        ),
        (
            "tiny",
            ["X1000000Y0D02*", "G03X1000000Y0I1J0D01*", "G02X999999Y-1I-1J0D01*"],
            [A, record("A", "J1.2", 1.05, 0)],
            "agrees",
        ),
        ("a thin pen and none", ["D13*", *HALF, "%ADD14C,0*%", "D14*", *HALF], [A, B], "undecided"),
        ("a short", [*HALF, "D11*", "X9000000Y0D03*"], [record("B", "J1.1", 1, 0), B, C], "differs"),
        ("a point without copper", HALF, [A, B, C], "differs"),
        (
            "nearer than the bounds",
            [*HALF, "D11*", "X0Y1600200D03*"],
            [A, B, record("B", "J2.1", 0, 1.6002)],
            "undecided",
        ),
        (
            "copies, figures",
            ["%SRX2Y2I0.5J0*%", *HALF, "D12*", "X0Y5000000D03*", "%SR*%", *made.region((0, 7), (1, 7), (0, 8))],
            [A, B],
            "agrees",
        ),
        ("inches", ["%LPD*%", *HALF], [A, B], "agrees"),
        (
            "slanted lines",
            [*LINES, "D20*", "X0Y0D03*"],
            [
                record("A", "J1.1", 1.9, 0.9),
                record("A", "J1.2", 1.1, 0.1),
                record("B", "J2.1", -2.1, 0.9),
                record("B", "J2.2", -2.9, 0.1),
            ],
            "agrees",
        ),
        (
            "a short by a slanted line",
            [*LINES, "D20*", "X0Y0D03*"],
            [record("A", "J1.1", 1.9, 0.9), record("B", "J2.1", 1.1, 0.1)],
            "differs",
        ),
        (
            "turned pads of KiCad",
            [*PAD, *HALF, "D20*", "%SRX2Y1I5.0J0*%", "X1000000Y0D03*", "%SR*%"],
            [A, B, record("A", "J1.3", 1.5, 0.65), record("B", "J2.1", 6, 0)],
            "agrees",
        ),
        ("a circle with a hole", ["%ADD14C,3X1*%", "D14*", "X0Y0D03*"], [A, B], "agrees"),
        (
            "circles with a hole, two nets",
            ["%ADD14C,3X2*%", "D14*", "%SRX2Y1I5.0J0*%", "X0Y0D03*", "%SR*%", "D11*", "X0Y0D03*"],
            [record("A", "J1.1", 1.2, 0), record("B", "J1.2", 0, 0), record("C", "J1.3", 3.8, 0)],
            "agrees",
        ),
        ("a point in a hole", ["%ADD14C,3X2.2*%", "D14*", "X0Y0D03*"], [record("A", "J1.1", 1.3, 0), B], "differs"),
        (
            "nearer to the border of a hole",
            ["%ADD14C,3X2*%", "D14*", "X0Y0D03*"],
            [record("A", "J1.1", 1.2, 0), record("A", "J1.2", -1.0001, 0)],
            "undecided",
        ),
        (
            "a rectangle with a hole",
            ["%ADD14R,3X2X1*%", "D14*", "X0Y0D03*"],
            [record("A", "J1.1", 1, 0.4), record("A", "J1.2", -0.6, 0)],
            "agrees",
        ),
        (
            "a point in the hole of a rectangle",
            ["%ADD14R,3X2X1*%", "D14*", "%SRX2Y1I5.0J0*%", "X0Y0D03*", "%SR*%"],
            [record("A", "J1.1", 1, 0.4), record("B", "J1.2", 5, 0)],
            "differs",
        ),
        ("a circle with another hole", ["%ADD14C,3X1.0000002*%", "D14*", "X0Y0D03*"], [A, B], "agrees"),
        (
            "a circle with a hole, of odd sizes",
            ["%ADD14C,3.0000001X1*%", "D14*", "%SRX2Y1I5.0J0*%", "X0Y0D03*", "%SR*%"],
            [A, B, record("B", "J2.1", 5, 1.4)],
            "agrees",
        ),
        (
            "a point in such a hole",
            ["%ADD14C,3X1.0000001*%", "D14*", "X0Y0D03*"],
            [A, record("A", "J1.2", 0, 0)],
            "undecided",
        ),
        (
            "rectangles with a hole, of odd sizes",
            ["%ADD14R,3.0000001X2X1*%", "%ADD15R,3X2X1.0000001*%", "D14*", "X0Y0D03*", "D15*", "X0Y5000000D03*"],
            [A, B, record("B", "J2.1", 1.4, 5.9), record("B", "J2.2", -0.6, 5)],
            "agrees",
        ),
        (
            "obrounds with a hole",
            ["%ADD14O,3X2X1*%", "%ADD15O,2.0000001X3X1.0000001*%", "D14*", "X0Y0D03*", "D15*", "X0Y5000000D03*"],
            [A, B, record("B", "J2.1", 0, 6.4), record("B", "J2.2", -0.9, 5)],
            "agrees",
        ),
        (
            "a short by an obround with a hole",
            ["%ADD14O,3X2X1*%", "D14*", "X0Y0D03*"],
            [record("A", "J1.1", 1.4, 0), record("B", "J1.2", -1.4, 0)],
            "differs",
        ),
        ("a circle of an odd size", ["%ADD14C,2.0000001*%", "D14*", "X0Y0D03*"], [A, B], "agrees"),
        ("draws with a pen of an odd size", ["%ADD14C,0.1999999*%", "D14*", *HALF, "X1000000Y0D01*"], [A, B], "agrees"),
        ("nearer to the border of an odd size", ["%ADD14C,1.9999999*%", "D14*", "X0Y0D03*"], [A, B], "undecided"),
        (
            "odd sizes",
            [
                "%ADD14R,2.0000001X0.4*%",
                "%ADD15O,2.0000001X0.4*%",
                "%ADD16O,0.4000001X2*%",
                "%ADD17C,0.0000001*%",
                *(word for k in range(14, 18) for word in (f"D{k}*", f"X0Y{k - 14}000000D03*")),
            ],
            [
                A,
                B,
                record("B", "J2.1", 1, 1),
                record("B", "J2.2", -1, 1),
                record("C", "J3.1", 0, 1.21),
                record("C", "J3.2", 0, 2.9),
            ],
            "differs",
        ),
        (
            "macros of odd sizes",
            [
                "%AMA*",
                "1,1,2.0000001,0,0,30*",
                "21,1,2,0.4000001,1.9,0,90*",
                "20,1,0.2000001,0.9,0,2,0,0*",
                "20,1,0.4000001,-3,0,-4,3,180*%",
                "%ADD20A*%",
                "D20*",
                "X0Y0D03*",
            ],
            [A, B, record("A", "J1.3", 0, 2.8), record("A", "J1.4", 1.9, -0.09), record("B", "J2.1", 3.5, -1.5)],
            "agrees",
        ),
        (
            "nearer to the border of such a macro",
            ["%AMA*", "1,1,1.9999999,0,0*%", "%ADD20A*%", "D20*", "X0Y0D03*"],
            [A, B],
            "undecided",
        ),
        (
            "regions with arcs",
            ROUNDED,
            [record("A", "J1.1", 1, 0.5), record("A", "J1.2", 0.5, 1), record("B", "J2.1", 7.5, 0.4)],
            "agrees",
        ),
        (
            "regions with arcs, two distances",
            UNEVEN,
            [record("A", "J1.1", 1, 0.5), record("A", "J1.2", 0.8, 1.5)],
            "agrees",
        ),
    ]

    # Behind EAGLE: by the parameter the right side of an octagon is 5 u further, at the points or 5 u nearer.
    EAGLE_ROWS = [
        (f"an octagon of {d}", [f"%ADD20OC8,{d}*%", "D20*", "X0Y0D03*"], [A, B], word)
        for d, word in (("2.000005", "agrees"), ("2.000004", "undecided"), ("2.000003", "differs"))
    ]

    # Behind TURNED.
    TURNED_ROWS = [
        (
            "a turned pad",
            ["D20*", "X0Y0D03*"],
            [record("A", "J1.1", 0.779, 0.45), record("A", "J1.2", -0.779, -0.45)],
            "agrees",
        ),
        (
            "a short by a turned pad",
            ["D20*", "X0Y0D03*"],
            [record("A", "J1.1", 0.779, 0.45), record("B", "J1.2", -0.779, -0.45)],
            "differs",
        ),
        (
            "beside a turned pad",
            ["D20*", "X0Y0D03*"],
            [record("A", "J1.1", 0.779, 0.45), record("A", "J1.2", 0.9, 0)],
            "differs",
        ),
        (
            "nearer than the bounds",
            ["D20*", "X0Y0D03*", "D10*", "X-149989Y259814D03*"],
            [record("A", "J1.1", 0.779, 0.45), record("B", "J1.2", -0.15, 0.26)],
            "undecided",
        ),
        (
            "by a parameter of a quarter turn",
            ["D21*", "X0Y0D03*", "D20*", "X9000000Y9000000D03*"],
            [record("A", "J1.1", 0, 0.9), record("A", "J1.2", 0, -0.9)],
            "agrees",
        ),
        (
            "an outline",
            ["D22*", "X0Y0D03*"],
            [record("A", "J1.1", -0.714, -0.678), record("A", "J1.2", -0.025, 0.985)],
            "agrees",
        ),
        (
            "two rectangles and discs",
            ["D23*", "X0Y0D03*"],
            [record("A", "J1.1", 0, 0.35), record("A", "J1.2", 0.35, 0)],
            "agrees",
        ),
        (
            "copies",
            ["D20*", "%SRX2Y2I1.3J0.75*%", "X0Y0D03*", "%SR*%"],
            [
                record("A", "J1.1", 0, 0),
                record("A", "J1.2", 2.1, 1.2),
                record("B", "J1.3", 1.3, 0),
                record("C", "J1.4", 0, 0.75),
            ],
            "agrees",
        ),
    ]

    # Behind BENT.
    BENT_ROWS = [
        (
            "a corner inwards",
            ["D20*", "X0Y0D03*"],
            [record("A", "J1.1", 0.709, 2.372), record("A", "J1.2", -0.813, 1.609)],
            "agrees",
        ),
        (
            "a short by it",
            ["D20*", "X0Y0D03*"],
            [record("A", "J1.1", 0.709, 2.372), record("B", "J1.2", -0.813, 1.609)],
            "differs",
        ),
        (
            "beside it",
            ["D20*", "X0Y0D03*"],
            [record("A", "J1.1", 0.709, 2.372), record("A", "J1.2", 0.216, 1.626)],
            "differs",
        ),
        (
            "nearer than the bounds",
            ["D20*", "X0Y0D03*", "D10*", "X-586602Y816025D03*"],
            [record("A", "J1.1", 0.709, 2.372), record("B", "J1.2", -0.587, 0.816)],
            "undecided",
        ),
        (
            "beside others",
            ["D21*", "X0Y0D03*"],
            [
                record("A", "J1.1", 1.777, -0.838),
                record("A", "J1.2", 1.413, -2.804),
                record("B", "J2.1", 0.273, 1.475),
                record("C", "J3.1", -1, 0),
            ],
            "agrees",
        ),
        (
            "two, clockwise, at a sum of degrees",
            ["D22*", "X0Y0D03*"],
            [
                record("A", "J1.1", 0.354, 1.061),
                record("A", "J1.2", -0.99, 1.273),
                record("B", "J2.1", 1.061, 0),
                record("B", "J2.2", -1.061, 0),
            ],
            "agrees",
        ),
        (
            "copies",
            ["D20*", "%SRX2Y2I3.0J3.5*%", "X0Y0D03*", "%SR*%"],
            [
                record("A", "J1.1", 0, 0.1),
                record("B", "J2.1", 3, 0.1),
                record("C", "J3.1", 0, 3.6),
                record("D", "J4.1", 3, 3.6),
                record("D", "J4.2", 3.709, 5.872),
            ],
            "agrees",
        ),
    ]

    def told(self, program, name, lines, records):
        """What `show` says of a file, by its status and its answer, and the notes."""
        text = "\n".join([*HEAD, *lines, "M02*", ""])
        text = (
            text.replace("46Y46", "26Y26").replace("MM", "IN").replace("1000000", "39370") if name == "inches" else text
        )
        self.board(
            {
                "m.json": manifest(drills=[("d.drl", 1, 1)]),
                "top.gbr": text,
                "n.ipc": netlist(*records),
                "d.drl": drill((20.0, 0.0), (21.0, 0.0)),
            },
            name,
        )
        status, out, notes = self.show(name, "-q", program=program)
        return status, re.split(", after|\n", out)[0].split(":")[1], notes

    def try_rows(self, rows, before=()):
        program = having_between()
        for name, lines, records, word in rows:
            with self.subTest(name):
                self.assertEqual(
                    self.told(program, name, [*before, *lines], records),
                    (STATUSES[word], f" {word}, between two bounds, proved", ""),
                )

    def test_rows(self):
        self.try_rows(self.ROWS)

    def test_turned_rows(self):
        self.try_rows(self.TURNED_ROWS, TURNED)

    def test_eagle_rows(self):
        self.try_rows(self.EAGLE_ROWS, EAGLE)

    def test_bent_rows(self):
        self.try_rows(self.BENT_ROWS, BENT)

    def test_on_the_cut(self):
        """A point on the cut of a smaller area is missing there: what `between` has as undecided besides is not under the word."""
        lines = ["%ADD14R,3X2X1*%", "D14*", "%SRX2Y1I5.0J0*%", "X0Y0D03*", "%SR*%"]
        status, out, _ = self.told(having_between(), "cut", lines, [A, record("B", "J1.2", 5, 0)])
        self.assertEqual((status, out), (1, " differs, between two bounds"))

    def test_kept_out(self):
        """What is not taken, and said without the word: an arc that has no place, and an arc and a primitive that `show` alone reads."""
        program = having_between()
        for lines in (
            ["X1000000Y0D02*", "G03X-1000000Y0I0J0D01*"],
            ["X1000000Y0D02*", "G03X-1000000Y0I-1000000J0D01*", "I1J1*"],
            [*HALF, "%AMA*", "20,1,0.2,-0.5,-0.5,0.5,0.5,30*%", "%ADD20A*%", "D20*", "X0Y0D03*"],
        ):
            self.board(
                {"m.json": manifest(), "top.gbr": "\n".join([*HEAD, *lines, "M02*", ""]), "n.ipc": netlist(A, B)}
            )
            _, out, _ = self.show("board", "-q", program=program)
            self.assertEqual(("between two bounds" in out, "proved" in out), (True, False), out)


if __name__ == "__main__":
    unittest.main()
