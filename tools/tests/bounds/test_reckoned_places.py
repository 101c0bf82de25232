"""Forms of copper files between bounds, one by one at places that are reckoned by hand; and what is not foreseen."""
import json
import os
import time
import unittest
from unittest import mock

from boardnet_show.base.statuses import fault_of
from boardnet_show.bounds.files import bounded_file
from boardnet_show.bounds.files.bounded_file import of_text
from boardnet_show.geometry.exact import Refused
from boardnet_show.geometry.pieces import Area, Capsule
from boardnet_show.judging import two_bounds
from tests.fixtures import made
from tests.fixtures.made import built, manifest, netlist, record
from tests.fixtures.real_shapes import fine, has, pieces_of

HEAD = ["%FSLAX46Y46*%", "%MOMM*%", "G75*"]
MM = 10**7


def both_of(*lines):
    return [pieces_of(side) for side in of_text("\n".join([*HEAD, *lines, "M02*"])).sides]


def at(x, y):
    return fine((round(x * MM), round(y * MM)))


class Places(unittest.TestCase):
    """Rows: lines; places in millimetres that are copper, and such that are none, each a micrometre or more from a border."""

    ROWS = [
        (
            "rectangle pen",
            ["%ADD12R,1X0.4*%", "D12*", "X0Y0D02*", "X3000000Y2000000D01*"],
            [(-0.499, -0.199), (3.499, 2.199), (1.5, 1.4), (-0.499, 0.199)],
            [(-0.499, 0.202), (0.5, -0.21 + 0.0), (3.6, 2), (1.5, 1.54)],
        ),
        (
            "rectangle pen along",
            ["%ADD12R,1X0.4*%", "D12*", "X0Y0D02*", "X3000000Y0D01*"],
            [(3.499, 0.199), (-0.499, -0.199)],
            [(3.501, 0), (1, 0.201)],
        ),
        (
            "obround pen",
            ["%ADD12O,1X0.4*%", "D12*", "X0Y0D02*", "X0Y2000000D01*"],
            [(0, 2.199), (0.499, 1), (-0.3, -0.199), (0.44, 2.14)],
            [(0.501, 1), (0.47, 2.17), (0, 2.201)],
        ),
        (
            "polygon pen",
            ["%ADD12P,1X4*%", "D12*", "X0Y0D02*", "X2000000Y0D01*"],
            [(2.499, 0), (1, 0.499), (2.25, 0.249)],
            [(2.27, 0.25), (1, 0.501)],
        ),
        (
            "obround with a hole",
            ["%ADD12O,2X1X0.5*%", "D12*", "X0Y0D03*"],
            [(0.251, 0), (-0.999, 0), (0, 0.499), (0.85, 0.35)],
            [(0.249, 0), (0, 0), (0.87, 0.37)],
        ),
        (
            "polygon with a hole",
            ["%ADD12P,2X4X45X0.5*%", "D12*", "X0Y0D03*"],
            [(0.70, 0.70), (0.251, 0)],
            [(0.249, 0), (0, 0.71)],
        ),
        (
            "thermal",
            ["%AMT*7,0,0,2,1,.2,0*%", "%ADD12T*%", "D12*", "X0Y0D03*"],
            [(0.6, 0.6), (-0.5, 0.6)],
            [(0.7, 0), (0, -0.7), (0.3, 0.3), (0.8, 0.8)],
        ),
        (
            "exposure off",
            ["%AMT*21,1,2,2,0,0,0*1,0,1,0,0*%", "%ADD12T*%", "D12*", "X0Y0D03*"],
            [(0.9, 0.9), (0.501, 0)],
            [(0, 0), (0.499, 0)],
        ),
        (
            "turned",
            ["%ADD12R,2X0.4*%", "D12*", "%LR90*%", "X0Y0D03*"],
            [(0, 0.999), (0.199, -0.999)],
            [(0.9, 0), (0.201, 0)],
        ),
        (
            "mirrored",
            ["%AMT*21,1,1,1,1,0,0*%", "%ADD12T*%", "D12*", "%LMX*%", "X5000000Y0D03*"],
            [(3.501, 0.4)],
            [(5.6, 0), (4.501, 0)],
        ),
        (
            "mirrored, then turned",
            ["%AMT*21,1,1,1,1,0,0*%", "%ADD12T*%", "D12*", "%LMX*%", "%LR90*%", "X0Y0D03*"],
            [(0, -1.499), (0.499, -1)],
            [(0, 1), (1, 0), (-1, 0)],
        ),
        (
            "sized",
            ["%ADD12C,1*%", "D12*", "%LS2*%", "X0Y0D03*", "X5000000Y0D02*", "G01X7000000D01*"],
            [(0.999, 0), (7.999, 0), (6, 0.999)],
            [(1.001, 0), (6, 1.001)],
        ),
        (
            "sized arc",
            ["%ADD12C,0.2*%", "D12*", "%LS2*%", "X1000000Y0D02*", "G03X-1000000Y0I-1000000J0D01*"],
            [(0, 1.198), (0, 0.802)],
            [(0, 1.202), (0, 0.798)],
        ),
        (
            "block",
            [
                "%ABD13*%",
                "%ADD12C,1*%",
                "D12*",
                "X0Y0D03*",
                "X2000000Y0D03*",
                "%AB*%",
                "D13*",
                "X10000000Y0D03*",
                "%LR90*%",
                "X0Y0D03*",
            ],
            [(10, 0), (12.499, 0), (0, 2), (0.499, 0)],
            [(11, 0), (2, 0), (0, 1)],
        ),
        (
            "clear block",
            [
                "%ADD12C,1*%",
                "D12*",
                "X0Y0D03*",
                "%ABD13*%",
                "%ADD14C,0.5*%",
                "D14*",
                "X0Y0D03*",
                "%AB*%",
                "%LPC*%",
                "D13*",
                "X0Y0D03*",
            ],
            [(0.251, 0)],
            [(0.249, 0)],
        ),
        (
            "block in a block",
            [
                "%ABD13*%",
                "%ABD14*%",
                "%ADD12C,1*%",
                "D12*",
                "X0Y0D03*",
                "%AB*%",
                "D14*",
                "X3000000Y0D03*",
                "%AB*%",
                "D13*",
                "X0Y5000000D03*",
            ],
            [(3, 5)],
            [(0, 0), (3, 0), (0, 5)],
        ),
        ("modal flash", ["%ADD12C,1*%", "D12*", "X0Y0D03*", "X5000000Y0*"], [(0, 0), (5, 0)], [(2, 0)]),
        ("defined again", ["%ADD12C,1*%", "%ADD12C,2*%", "D12*", "X0Y0D03*"], [(0.999, 0)], [(1.001, 0)]),
        (
            "a quarter and a hair",
            ["%ADD12C,0.2*%", "D12*", "G74*", "X1000001Y0D02*", "G03X-1Y1000000I1000001J0D01*"],
            [(0.7071, 0.7071)],
            [(0.9, 0.9), (-0.7071, -0.7071)],
        ),
        (
            "arc of no length in a region",
            ["G36*", "X0Y0D02*", "G74*", "G01X1000000Y0D01*", "G03X1000000Y0I1000J1000D01*", "G01X0Y0D01*", "G37*"],
            [],
            [(0.5, 0.002)],
        ),
        ("a disc of 10 nm in a region", ["G36*", "X0Y0D02*", "G03X0Y0I10J0D01*", "G37*"], [], [(0.001, 0.001)]),
        (
            "a channel and two radii",
            [
                "G36*",
                "X1000000Y10000D02*",
                "G03X1000001Y-10000I-1000000J-10000D01*",
                "G01X3000000Y-10000D01*",
                "Y-3000000D01*",
                "X-3000000D01*",
                "Y3000000D01*",
                "X3000000D01*",
                "Y10000D01*",
                "X1000000D01*",
                "G37*",
            ],
            [(-1.001, 0), (2, 0.011), (0.72, 0.72)],
            [(0, 0), (2, 0), (-0.999, 0), (0.69, 0.69)],
        ),
        (
            "a cut-in that touches an arc",
            [
                "G36*",
                "X-3000000Y-3000000D02*",
                "G01X3000000D01*",
                "Y0D01*",
                "X-1000000Y0D01*",
                "G02X-1000000Y0I1000000J0D01*",
                "G01X3000000Y0D01*",
                "Y3000000D01*",
                "X-3000000D01*",
                "Y-3000000D01*",
                "G37*",
            ],
            [(-1.001, 0), (0.72, 0.72), (2, 0.001)],
            [(0, 0.1), (0.69, 0.69), (-0.999, 0.001)],
        ),
    ]

    # Macros turned, and what is told to be lost of them: parts that vanish, and the join of those that stay.
    CUT = ["21,1,3,3,0,0,0", "1,0,1,0,0"]
    CROSSED = ["1,1,2,0,0", "21,0,2,0.2,0,0,0", "21,0,0.2,2,0,0,0"]
    LOST = [
        (CUT, [], []),
        (CUT, ["%LR90*%"], []),
        (CUT, ["%LMX*%", "%LR270*%"], []),
        (CUT, ["%LR45*%"], ["the join of the 2 parts of a changed shape"]),
        (CUT, ["%LS0.7*%"], ["the join of the 2 parts of a changed shape"]),
        (CROSSED, ["%LR90*%"], []),
        (CROSSED, ["%LR30*%"], ["2 of the 4 parts of a changed shape"]),
        (["21,1,3,3,0,0,0", "4,0,3,0,0,1,0,0,1,0,0,0"], ["%LR45*%"], ["all of a changed shape"]),
        (["21,1,3,3,0,0,0", "1,0,1,1.5,1.5"], ["%LR45*%"], []),
        (["21,1,3,3,0,0,0", "21,1,1,4,1,0,0"], ["%LR45*%"], []),
        (["1,1,3,0,0", "1,1,1,2,0"], ["%LR45*%"], []),
    ]

    def test_lost(self):
        """What a turned macro loses below is told, of each flash and of those in blocks, and of clear ones as what is not taken away."""
        for body, change, lost in self.LOST:
            with self.subTest(body=body, change=change):
                lines = [*HEAD, "%AMA*", *(line + "*" for line in body[:-1]), body[-1] + "*%", "%ADD12A*%", "D12*"]
                of = lambda *more: of_text("\n".join([*lines, *more, "M02*"])).lost
                at = len(HEAD) + len(body) + 4 + len(change)
                self.assertEqual(of(*change, "X0Y0D03*"), [f"{words} at command {at}" for words in lost])
                self.assertEqual(
                    of("%LPC*%", *change, "X0Y0D03*"),
                    [f"what {words} takes away, as far as that is not sure, at command {at + 1}" for words in lost],
                )
                block = of("%ABD13*%", "D12*", "X0Y0D03*", "%AB*%", "D13*", *change, "X0Y0D03*")
                self.assertEqual(
                    block, [f"{words.replace('shape', 'object of the block')} at command {at + 5}" for words in lost]
                )

    def test_told_once(self):
        """Each kind is told once of a file, with its first place and how many more there are."""
        text = "\n".join(["%FSLAX46Y46*%%MOMM*%", "D10*", "", "X0Y0D03*X1Y1D03*", "M02*", ""]).encode()
        self.assertEqual(two_bounds.told_once(text, []), [])
        self.assertEqual(
            two_bounds.told_once(
                text,
                [
                    "an arc at command 4",
                    "a polygon at command 5",
                    "an arc at command 5",
                    "an arc at command 3 of the block at command 5",
                ],
            ),
            [
                "an arc at command 4, line 4, and 1 more",
                "a polygon at command 5, line 4",
                "an arc at command 3 of the block at command 5, line 4",
            ],
        )

    def test_blanks_in_macros(self):
        """A blank inside a number may part two; elsewhere it parts nothing that is not parted, and a comment says nothing."""
        lines = lambda body: "\n".join([*HEAD, f"%AMA*{body}*%", "%ADD12A,1*%", "D12*", "X0Y0D03*", "M02*"])
        for body in (
            "1,1,1 0,0,0",
            "1,1,1 .5,0,0",
            "1,1,1. 5,0,0",
            "1,1,$ 1,0,0",
            "1,1,$1 0,0,0",
            "1,1,1\n0,0,0",
            "1,1,1\t0,0,0",
            "1 1,1,1,0,0",
            "$2=1 0*1,1,1,0,0",
            "1,1,$1,0,1 \r\n 0",
            "2 0,1,1,0,0,1,0,0",
        ):
            with self.subTest(body=body), self.assertRaisesRegex(Refused, "macro: a blank inside a number"):
                of_text(lines(body))
        for body in (
            "1,1,1,0,0",
            "1, 1,1 ,0, 0 ",
            "\n1,1,\n1,0,0",
            "1,1,$1 + 0,0,0",
            "1,1,- 1x -1,0,0",
            "$2 = $1 *1,1,$2,0,0",
            "0 1 0*1,1,1,0,0",
            "0 a 1 .5*1,1,( $1 ),0,0",
        ):
            with self.subTest(body=body):
                self.assertEqual(
                    pieces_of(of_text(lines(body)).sides[0]), pieces_of(of_text(lines("1,1,1,0,0")).sides[0])
                )

    def test_rows(self):
        for name, lines, inside, outside in self.ROWS:
            with self.subTest(name):
                low, high = both_of(*lines)
                self.assertEqual([[p for p in inside if not has(pieces, at(*p))] for pieces in (low, high)], [[], []])
                self.assertEqual([[p for p in outside if has(pieces, at(*p))] for pieces in (low, high)], [[], []])
                self.assertTrue(all(len(piece.corners) > 2 for piece in low + high if isinstance(piece, Area)))

    def test_unused(self):
        """What has no bounds and is not used is no matter."""
        low, high = both_of(
            "%ADD13C,1X.2X.2*%", "%AMA*6,0,0,1,.1,.1,2,.1,1,0*%", "%ADD14A*%", "%ADD12C,1*%", "D12*", "X0Y0D03*"
        )
        self.assertEqual((low, high), ([Capsule((0, 0), (0, 0), MM // 2)],) * 2)

    def test_open_contours(self):
        """A contour with an arc that is not closed is passed on, so that `check` refuses it."""
        for side in of_text(
            "\n".join([*HEAD, "G36*", "X0Y0D02*", "G03X0Y2000000I0J1000000D01*", "G37*", "M02*"])
        ).sides:
            last = side.lines.index("G37*")
            self.assertEqual((side.lines[3], side.lines[last - 1]), ("X0Y0D02*", "X0Y20000000D01*"))

    def test_long_contours(self):
        """16,000 slanted edges and an arc; numbers that grow twofold."""
        edges = [f"X{k * 6000 + far}Y{far}D01*" for k in range(8000) for far in (10**8, 10**6)]
        began = time.process_time()
        low, _ = both_of(
            "G36*",
            "X0Y0D02*",
            "G01*",
            *edges,
            "X200000000Y-5000000D01*",
            "G02X201000000Y-6000000I0J-1000000D01*",
            "G01X0Y0D01*",
            "G37*",
        )
        self.assertEqual((len(low), time.process_time() - began < 8), (1, True))


class Unforeseen(made.Case):
    """A fault of `show` has its own status and a line that names the file; the other boards are told."""

    def board(self, name, *lines):
        self.write(f"{name}/m.json", manifest())
        self.write(f"{name}/top.gbr", "\n".join([*HEAD, "%ADD10C,1.0*%", "D10*", *lines, "M02*", ""]))
        self.write(f"{name}/n.ipc", netlist(record("A", "J1.1", 1, 0), record("A", "J1.2", 1, 0)))

    def test_fault(self):
        self.board("bad", "X1000000Y0D02*", "G03X-1000000Y0I-1000000J0D01*")
        self.board("good", "X1000000Y0D03*")
        with mock.patch.object(bounded_file, "of_text", side_effect=ZeroDivisionError("by 0")):
            status, out, _ = self.show("bad", "good")
            self.assertEqual((status, out.count("\n"), "PASS good: " in out), (70, 3, True), out)
            self.assertIn(
                f"bad: {os.path.join('bad', 'top.gbr')}: a fault of `show` itself, which is no answer on the board (ZeroDivisionError by 0, in ",
                out,
            )
            status, out, _ = self.show("bad", "--json", "-")
            self.assertEqual((status, '"status": 70' in out), (70, True))
        with mock.patch("boardnet_show.output.json_form.json_text", side_effect=KeyError("x")):
            status, out, notes = self.show("good", "--json", "-")
            self.assertEqual(
                (status, out, notes.startswith("boardnet: good: a fault of `show` itself")), (70, "", True), notes
            )

    def test_counts(self):
        """Opens, shorts and missing are those of the line in every form; findings are counted apart. A name in three parts is two opens
        and one finding; what the upper bound alone joins is undecided."""
        arc = ["D10*", "X20000000Y0D02*", "G03X18000000Y0I-1000000J0D01*", "G01*"]
        flashes = [f"X{x}000000Y5000000D03*" for x in (0, 3, 6, 9)]
        self.board("board", *arc, *flashes, "X0Y5000000D02*", "X0Y7000000D01*")
        points = [record("A", f"J1.{k}", 3 * k, 5) for k in range(3)] + [
            record("B", "J2.1", 0, 7),
            record("C", "J2.2", 9, 5),
            record("C", "J2.3", 12, 5),
        ]
        self.write("board/n.ipc", netlist(*points))
        for program in self.over_both():
            status, out, _ = self.show(
                "board",
                "--explain",
                "--json",
                "b.json",
                "--page",
                "b.html",
                "--junit",
                "b.xml",
                "--rdb",
                "b.lyrdb",
                program=program,
            )
            line = "bounds: lower differs, opens 2, shorts 1, missing 1; upper differs, opens 2, shorts 1, missing 1\n"
            self.assertEqual((status, line in out, "3 faults are certain. " in out), (1, True, True), out)
            board = json.loads(self.read("b.json"))["boards"][0]
            words = ("opens", "shorts", "missing", "open_ties", "certain", "undecided")
            self.assertEqual([board[word] for word in words], [2, 1, 1, 0, 3, 0])
            self.assertEqual(len(board["findings"]), 3)
            self.assertTrue(
                "Opens <span>1 finding</span>" in self.read("b.html") and line.strip() in self.read("b.html")
            )
            self.assertRegex(
                self.read("b.lyrdb"),
                "<description>FAIL board: 3 faults are certain. Certain: the same for the least and the most ",
            )

    def test_no_memory(self):
        self.assertEqual(fault_of("x", MemoryError()).status, 6)

    def test_pictures(self):
        """Page, picture, markers and JSON of a board between bounds, with what the upper board alone has."""
        self.write("board/m.json", manifest())
        self.write(
            "board/top.gbr",
            "\n".join(
                [
                    *HEAD,
                    "%ADD10C,0.2*%",
                    "D10*",
                    "X1000000Y0D02*",
                    "G03X-1000000Y0I-1000000J0D01*",
                    "%ADD12C,0.0002*%",
                    "D12*",
                    "X9000000Y0D02*",
                    "G03X7000000Y0I-1000000J0D01*",
                    "M02*",
                    "",
                ]
            ),
        )
        self.write(
            "board/n.ipc", netlist(record("A", "J1.1", 1, 0), record("B", "J1.2", -1, 0), record("C", "J2.1", 9, 0))
        )
        for program in filter(None, [built()]):
            status, out, _ = self.show(
                "board", "--page", "p.html", "--svg", "p.svg", "--rdb", "p.lyrdb", "--json", "p.json", program=program
            )
            self.assertEqual(status, 1, out)
            self.assertIn("  short-0: A at J1 pin 1", out)
            self.assertIn("; top.gbr command 7 could belong to either.", out)
            self.assertIn("  undecided missing-0: ", out)
            page, picture, markers, told = (self.read(name) for name in ("p.html", "p.svg", "p.lyrdb", "p.json"))
            self.assertTrue(
                "Some of the copper is not known exactly" in page
                and "undecided missing 0" in page
                and "FAIL: 1 fault is certain, 1 is possible. Certain: the same " in page
            )
            self.assertIn('class="wider"', picture)
            self.assertIn("<category>wider</category>", markers)
            self.assertIn('"sure": false', told)


if __name__ == "__main__":
    unittest.main()
