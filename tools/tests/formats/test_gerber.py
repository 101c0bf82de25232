"""Copper files: the lexer's words with their places, and what the state machine has heard."""
import os
import random
import re
import shutil

from boardnet_show.formats.gerber_lexer import Broken, Plain, Run, Word, choosing, holding, line_numbers, pairs, tokens
from boardnet_show.formats.gerber_machine import Machine, Unread
from boardnet_show.formats.gerber_objects import objects_of
from tests.fixtures import common

HEAD = b"%FSLAX46Y46*%\n%MOMM*%\n%ADD10C,1*%\nD10*\n"
REGION = b"G36*\n" + b"".join(b"X%dY%dD0%d*\n" % (k, k * k, 1 if k else 2) for k in range(20)) + b"G37*\n"


class Heard(Machine):
    """Notes what it hears."""

    def __init__(self, data, runs=False, plain=False):
        super().__init__()
        self.RUNS, self.PLAIN, self.heard = runs, plain, []
        self.read(data)

    def note(self, *what):
        self.heard.append((self.number, *what, self.spot))

    def draw(self, start):
        self.note("draw", start, self.chosen, self.is_dark, self.attributes.net)

    def arc(self, start, centre):
        self.note("arc", start, self.mode, self.quadrants, self.offset(centre))

    def flash(self):
        self.note("flash", self.chosen, self.depth)

    def move(self):
        self.note("move")

    def contour(self, start):
        self.note("contour")

    def edge(self, start):
        self.note("edge", start)

    def region_ends(self):
        super().region_ends()
        self.note("region")

    def steps(self, text):
        self.note("steps", text)

    def implied(self):
        self.note("implied", self.code)

    def mismatched(self, is_arc):
        self.note("mismatched", is_arc)

    def other(self, text):
        self.note("other", text)


class Lexer(common.Case):
    def test_words_with_their_places(self):
        data = b"G04 a*%FSLAX46Y46*\n%X1Y-2I3J4D01* G1X5*\nD02*\r\n%AMA*1,1,2,0,0*%\n*M02*"
        found = [*tokens(data)]
        self.assertEqual(
            [(it.text, it.inside, it.first) for it in found],
            [
                (b"G04 a", False, True),
                (b"FSLAX46Y46", True, True),
                (b"X1Y-2I3J4D01", False, True),
                (b"G1X5", False, False),
                (b"D02", False, False),
                (b"AMA", True, True),
                (b"1,1,2,0,0", True, False),
                (b"", False, True),
                (b"M02", False, False),
            ],
        )
        self.assertEqual(
            [it.parts for it in found if it.parts],
            [(None, b"1", b"-2", b"I3J4", b"1"), (b"1", b"5", None, b"", None), (None, None, None, b"", b"2")],
        )
        for it in found:
            self.assertEqual((data[it.start : it.end], data[it.end : it.end + 1]), (it.text, b"*"))
        self.assertEqual(line_numbers(data, [1, 3, 5, 8]), {1: 1, 3: 2, 5: 3, 8: 5})
        self.assertEqual([*pairs(data)], [it for it in found if it.inside])
        self.assertEqual([it.text for it in holding(data, b"D0")], [b"X1Y-2I3J4D01", b"D02"])

    def test_no_words(self):
        for data, start, end in ((b"M02*\nG1", 5, 7), (b"G1%FS*%", 0, 2), (b"%FS\n%M02*", 1, 4)):
            with self.assertRaises(Broken) as caught:
                [*tokens(data)]
            self.assertEqual((caught.exception.start, caught.exception.end), (start, end))
        for data, why in ((b"G1%FS*%", "a broken word at byte 0"), (b"M02*G1", "a word without an end")):
            with self.assertRaisesRegex(Unread, why):
                Machine().read(data)

    def test_many_words_at_once(self):
        """A run and plain words are the words that they stand for."""
        for ends in (b"\n", b"\r\n", b"", b"\n\n"):
            plain = b"D10*\nX1Y1D02*\nX2D01*\nD03*\nG01*\nX5Y5D3*\n%LPC*%Y7D02*\n"
            data = (HEAD + REGION + plain + REGION + b"M02*\n").replace(b"\n", ends)
            one_by_one = Heard(data).heard
            for runs, plain in ((True, False), (False, True), (True, True)):
                with self.subTest(ends=ends, runs=runs, plain=plain):
                    self.assertEqual(Heard(data, runs, plain).heard, one_by_one)
            self.assertEqual([type(it) for it in tokens(data, runs=True)].count(Run), 2)
            self.assertIn(Plain, [type(it) for it in tokens(data, plain=True)])
            self.assertEqual({type(it) for it in tokens(data)}, {Word})
        for body in (b"X1Y1D03*" * 9, b"X1Y1I0D01*" * 9, b"X1D01*" * 9, b"X1Y1D01*" * 5 + b"D10*" * 5, b"G04*" * 20):
            self.assertNotIn(Run, [type(it) for it in tokens(HEAD + b"G36*" + body + b"G37*", runs=True)])

    def test_words_that_choose(self):
        data = b"%ADD12C,1*%D12*\nG54D12*X1Y1D01*D012*D120*D112*G04 D12*%D12*%D13*\nXD12*D11*"
        found = [*choosing(data, {12, 11})]
        self.assertEqual([it.text for it in found], [b"D12", b"G54D12", b"D012", b"D11"])
        self.assertEqual([data[it.start : it.end] for it in found], [it.text for it in found])

    def test_program_counts_alike(self):
        """Conformance with the crate `gerber_words`: a word that `check` refuses has the number and the byte that the
        lexer gives it."""
        rng, program = random.Random(5), common.program()
        for turn in range(40):
            folder = self.path(f"board{turn}")
            shutil.copytree(os.path.join(common.EXAMPLES, "two_layer"), folder)
            path = os.path.join(folder, "F_Cu.gbr")
            with open(path, "rb") as file:
                data = file.read().replace(b"M02*", b"")
            inside = [it.inside for it in tokens(data)]
            at = rng.choice([it.end for it, within in zip(tokens(data), inside[1:]) if not it.inside and not within])
            before, refused = rng.choice([b"", b" ", b"\n\r\t", b"\n\n"]), rng.choice([b"Q*", b"G91*\n", b"X1*Q*"])
            data = data[: at + 1] + before + refused + data[at + 1 :] + b"M02*"
            with open(path, "wb") as file:
                file.write(data)
            said = "".join(self.run_words([program, "check", "m.json"], folder)[1:])
            number, start = map(int, re.search(r" at command (\d+), byte (\d+)", said).groups())
            word = [*tokens(data)][number - 1]
            self.assertEqual((word.start, word.text in (b"Q", b"G91", b"X1")), (start, True), said)


class StateMachine(common.Case):
    def test_operations(self):
        heard = Heard(
            HEAD + b"%TO.N,A*%X1Y2D02*X3D01*G04 #@! TO.N, B *Y5D01*%LPC*%%TD*%" b"G02*G75*X9Y9I1J-2D01*X0Y0D03*"
        ).heard
        self.assertEqual(
            [it[1:] for it in heard],
            [
                ("move", (1, 2)),
                ("draw", (1, 2), 10, True, "A", (3, 2)),
                ("draw", (3, 2), 10, True, "B", (3, 5)),
                ("arc", (3, 5), 2, "G75", (1, -2), (9, 9)),
                ("flash", 10, 0, (0, 0)),
            ],
        )

    def test_regions_blocks_and_steps(self):
        heard = Heard(HEAD + b"G36*X1Y1D02*X2D01*Y2D01*G37*%SRX2Y1I1J0*%%ABD11*%D10*X0Y0D03*%AB*%%SR*%X7D03*").heard
        self.assertEqual(
            [it[1:] for it in heard],
            [
                ("contour", (1, 1)),
                ("edge", (1, 1), (2, 1)),
                ("edge", (2, 1), (2, 2)),
                ("region", (2, 2)),
                ("steps", "SRX2Y1I1J0", (2, 2)),
                ("flash", 10, 1, (0, 0)),
                ("steps", "SR", (0, 0)),
                ("flash", 10, 0, (7, 0)),
            ],
        )

    def test_program_makes_as_many_pieces(self):
        """Conformance with the crates `gerber_layer` and `step_repeat`: each object has as many pieces as `flatten`
        makes of it."""
        rng, program, count = random.Random(9), common.program(), 0
        place = lambda: "X%dY%d" % (rng.randrange(-9, 9) * 10**5, rng.randrange(-9, 9) * 10**5)
        square = lambda: "X0Y0D02*X5D01*Y5D01*X0Y0D01*"
        words = (
            lambda: f"D{rng.randrange(10, 15)}*",
            lambda: place() + "D03*",
            lambda: place() + "D02*",
            lambda: place() + "D01*",
            lambda: "G36*G37*",
            lambda: f"G01{place()}D1*",
            lambda: "X%dD01*" % rng.randrange(99),
            lambda: "D03*",
            lambda: f"G36*{square() * rng.randrange(3)}G37*",
            lambda: "%%SRX%dY2I9J.5*%%" % rng.randrange(1, 4),
            lambda: "%SR*%",
            lambda: "G04 D03*",
            lambda: "%TO.N,A*%",
        )
        for turn in range(60):
            text = (
                "%FSLAX46Y46*%%MOMM*%%ADD10C,1*%%ADD11R,1X2*%%ADD12O,2X1*%%AMM*1,1,1,0,0*21,1,1,1,0,0,90*%"
                "%ADD13M*%%ADD14C,0*%D10*"
                + place()
                + "D02*"
                + "".join(rng.choice(words)() for _ in range(rng.randrange(40)))
                + "%SR*%M02*"
            )
            self.write("x.gbr", text)
            status, flat, notes = self.run_words([program, "flatten", "x.gbr"])
            if "PenNotCircle" in notes:  # a draw with a rectangle
                continue
            self.assertEqual(status, 0, notes + text)
            strokes = re.sub(r"(?s)G36\*\n.*?G37\*\n", "", flat).count("D01*")
            self.assertEqual(sum(it.pieces for it in objects_of(text.encode())), flat.count("G36*") + strokes, text)
            count += 1
        self.assertGreater(count, 20)

    def test_what_may_not_be_said(self):
        heard = Heard(HEAD + b"X1Y1*X2D02*X3*G02X1Y1D01*G01X2I0D01*X5J1I2D01*G91*XY*").heard
        self.assertEqual(
            [it[1:] for it in heard],
            [
                ("implied", None, (0, 0)),
                ("move", (2, 1)),
                ("implied", 2, (2, 1)),
                ("move", (3, 1)),
                ("mismatched", True, (1, 1)),
                ("draw", (3, 1), 10, True, "", (1, 1)),
                ("mismatched", False, (2, 1)),
                ("draw", (1, 1), 10, True, "", (2, 1)),
                ("other", b"X5J1I2D01", (2, 1)),
                ("other", b"G91", (2, 1)),
                ("other", b"XY", (2, 1)),
            ],
        )
