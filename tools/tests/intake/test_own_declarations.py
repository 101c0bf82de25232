"""What copper files say of themselves is judged for their place: before macros are flattened, and in comments, which `check` passes over."""
import re

from boardnet_show.formats import gerber_attributes, gerber_objects
from tests.fixtures import made
from tests.fixtures.made import draw, flash, gerber, label, manifest, netlist, record

MACRO = ["%AMRound*\n1,1,1.0,0,0*%", "%ADD13Round*%"]
NAMES = ("top.gbr", "in1.gbr", "in2.gbr", "bot.gbr")
SIDES = ("Top", "Inr", "Inr", "Bot")
NET = netlist(record("SIG", "J1.1", 0, 0, "02"), record("SIG", "J1.2", 10, 0, "02"))
COMMENT = "by an attribute in a comment, which `check` passes over"


def said(attribute, is_comment):
    return f"G04 #@! {attribute}*\n" if is_comment else f"%{attribute}*%\n"


def copper(number, is_comment=False, has_macro=False, more=""):
    """A layer that says which it is; the second has a track between both pads."""
    pads = [*(MACRO if has_macro else []), *flash(13 if has_macro else 10, (0, 0), (10, 0))]
    track = draw(11, (0, 0), (10, 0)) if number == 2 else []
    return said(f"TF.FileFunction,Copper,L{number},{SIDES[number - 1]}", is_comment) + more + gerber(*pads, *track)


def board(order=NAMES, **how):
    return {
        "m.json": manifest(order),
        "n.ipc": NET,
        **{name: copper(number, **how) for number, name in enumerate(NAMES, 1)},
    }


class Said(made.Case):
    def test_layers_exchanged(self):
        """Each file for its own place, flattened or not; the order that the files say is tried."""
        swapped = ("top.gbr", "in2.gbr", "in1.gbr", "bot.gbr")
        for is_comment, has_macro in ((False, True), (True, False), (True, True)):
            with self.subTest(is_comment=is_comment, has_macro=has_macro):
                self.board(board(swapped, is_comment=is_comment, has_macro=has_macro))
                out = self.show("board")[1]
                status, quiet, _ = self.show("board", "-q")
                line = f"board: in2.gbr: Gerber 25 WrongLayer at command 1, byte {0 if is_comment else 1}{', ' + COMMENT if is_comment else ''}; line 1 of in2.gbr"
                self.assertEqual((status, quiet.splitlines()[0].partition("; behind that: ")[0]), (3, line))
                self.assertIn(
                    f"hint: with the layers in the order {', '.join(NAMES)}, as the files say, the board passes", out
                )
        self.board(board(is_comment=True, has_macro=True))
        self.assertEqual(self.show("board", "-q")[:2], (0, "board: agrees\n"))

    def test_one_file_twice(self):
        """A file that is named for two places is none of one of them."""
        self.board(board(("top.gbr", "in1.gbr", "in1.gbr", "bot.gbr"), has_macro=True))
        self.assertEqual(
            self.show("board", "-q")[:2],
            (3, "board: in1.gbr: Gerber 25 WrongLayer at command 1, byte 1; line 1 of in1.gbr\n"),
        )

    def test_what_says_nothing(self):
        """Another word, a word behind the file's end of a macro's body, and a comment without the sign."""
        words = [
            "G04 TF.FileFunction,Copper,L3,Inr*\n",
            "G04 #@! TF.FileFunctions,Copper,L3*\n",
            "G04 a #@! TF.FileFunction,Copper,L3*\n",
            "G04 #@! TF.FilePolarity,Positive*\n",
            "%TF.FilePolarity,Positive*%\n",
            "G04 #@! TF.Part,Negative*\n",
            "G04 FilePolarity,Negative*\n",
        ]
        for more in words:
            with self.subTest(more=more):
                files = board(is_comment=True)
                self.board({**files, "in1.gbr": copper(2, True, True, more)})
                self.assertEqual(self.show("board", "-q")[:2], (0, "board: agrees\n"))

    def test_other_functions(self):
        for is_comment, function in (
            (True, "Soldermask,Top"),
            (False, "Copper"),
            (True, "Copper,L02"),
            (False, "Copper,2"),
        ):
            with self.subTest(function=function, is_comment=is_comment):
                text = said(f"TF.FileFunction,{function}", is_comment) + gerber(*MACRO, *flash(13, (0, 0), (10, 0)))
                self.board({**board(), "in1.gbr": text})
                status, out, _ = self.show("board", "-q")
                self.assertEqual((status, "in1.gbr: Gerber 25 WrongLayer at command 1" in out), (3, True))

    def test_negative(self):
        """A negative layer has its copper where it draws nothing, whoever says that it is negative."""
        answers = set()
        for has_macro, more in (
            (False, "%TF.FilePolarity,Negative*%\n"),
            (False, "G04 #@! TF.FilePolarity,Negative*\n"),
            (True, "G04 #@!TF.FilePolarity, negative*\n"),
            (True, "%TF.FilePolarity, Negative*%\n"),
        ):
            with self.subTest(more=more):
                self.board({**board(has_macro=has_macro), "in1.gbr": copper(2, False, has_macro, more)})
                status, out, _ = self.show("board", "-q")
                answers.add((status, out.splitlines()[0]))
        ((status, line),) = answers
        self.assertEqual(
            (status, line.split(",")), (1, ["board: differs", " between two bounds: 2 findings certain"]), line
        )

    def test_negative_and_exchanged(self):
        """A negative file, before in the same file or in another one, hides no layer of another place: its copies have no comments."""
        arc = ["G75*", "X0Y0D02*", "G03X1000000Y1000000I0J1000000D01*", "G01*"]
        for files in (("in2.gbr", "in1.gbr"), ("in1.gbr", "in2.gbr")):
            negative = said("TF.FilePolarity,Negative", True)
            its = {**board(("top.gbr", *files, "bot.gbr"), is_comment=True), "top.gbr": negative + copper(1, True)}
            its.update(
                {
                    f"in{k - 1}.gbr": negative * (k == 3) + copper(k, True).replace("M02*", "\n".join([*arc, "M02*"]))
                    for k in (2, 3)
                }
            )
            self.board(its)
            status, out, _ = self.show("board", "-q")
            self.assertEqual("WrongLayer" in out, files[0] == "in2.gbr", out)
            self.assertEqual(status == 3, files[0] == "in2.gbr", out)

    def commented(self, lines):
        """Lines whose attributes are comments."""
        return [re.sub(r"^%(T[AOD][^*]*)\*%$", r"G04 #@! \1*", line) for line in lines]

    def test_names_in_comments(self):
        """Pads are named by comments as by attributes: for a board without a netlist, for a short's labels, and for what stands on a layer."""
        pads = [
            "%TA.AperFunction,SMDPad*%",
            "%ADD14C,1.0*%",
            "%TO.P,U1,1*%",
            *label("GND"),
            *flash(14, (0, 0)),
            "%TO.P,U1,2*%",
            *label("VCC"),
            *flash(14, (10, 0)),
            "%TD*%",
            *draw(11, (0, 0), (10, 0)),
        ]
        answers = set()
        for lines in (pads, self.commented(pads)):
            self.board(
                {"top.gbr": said("TF.FileFunction,Copper,L1,Top", lines != pads) + gerber(*lines)},
                f"board{len(answers)}",
            )
            status, out, _ = self.show(f"board{len(answers)}", "--no-drills")
            answers.add(
                (
                    status,
                    out.replace(f"board{len(answers)}", "board").split("names: ")[0],
                    "By the files' labels" in out,
                )
            )
        self.assertEqual([(status, is_labelled) for status, _, is_labelled in answers], [(1, True)], answers)
        found = [gerber_objects.objects_of(gerber(*lines).encode()) for lines in (pads, self.commented(pads))]
        self.assertEqual(found[0], found[1])
        self.assertEqual(
            [(it.function, it.net, it.part, it.pin) for it in found[1]],
            [("SMDPad", "GND", "U1", "1"), ("SMDPad", "VCC", "U1", "2"), ("", "", "", "")],
        )

    def test_comments_that_name_nothing(self):
        """A comment that only speaks of pins is none of an attribute: pads of nets stay test points."""
        for comment in ("G04 without TO.P, here*", "G04 TO.P,U1,1*", "G04 #@ TO.P,U1,1*", "%TF.Part,TO.P,U1,1*%"):
            lines = [
                comment,
                *label("GND"),
                *flash(10, (0, 0)),
                *label("GND"),
                *flash(10, (10, 0)),
                "%TD*%",
                *draw(11, (0, 0), (10, 0)),
            ]
            self.board({"top.gbr": said("TF.FileFunction,Copper,L1,Top", False) + gerber(*lines)})
            status, out, _ = self.show("board", "--no-drills")
            self.assertEqual((status, "names: 2 test points of 1 net" in out), (0, True), out)

    def test_written(self):
        """A file with its attributes in comments, as the attributes that they are; the numbers of its words stay."""
        rows = [
            (b"G04 #@! TO.N,GND*", b"%TO.N,GND*%"),
            (b"G04 #@!TD*\nG04 a*", b"%TD*%\nG04 a*"),
            (b"G04 a #@! TO.N,GND*", None),
            (b"%INa #@! TO.N,GND*%", None),
            (b"G04 #@! XX*", None),
        ]
        for text, wanted in rows:
            self.assertEqual(gerber_attributes.written(text), wanted or text)

    def test_negative_twice(self):
        self.board(
            {**board(), "in1.gbr": copper(2, more="%TF.FilePolarity,Negative*%\nG04 #@! TF.FilePolarity,Negative*\n")}
        )
        status, out, _ = self.show("board", "-q")
        self.assertEqual((status, "no bounds: in1.gbr: a file that is negative twice" in out), (3, True))
