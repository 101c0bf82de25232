"""Mends: files in the forms of several tools, each with the same board as a file that `check` takes; and files that must stay as they are."""
import json
import os
import random
import time
import unittest

from boardnet_show.base import refusals
from boardnet_show.formats.drills import drill_plating
from boardnet_show.intake import cad_tools, export_advice
from boardnet_show.intake.evidence import drill_numbers
from boardnet_show.intake.mends import chords, copper_mends, drill_mends, mended_files, netlist_mends, table
from boardnet_show.judging.answers import STOPPED, Answer
from boardnet_show.output.sentences import answers as sentences
from tests.fixtures import common

HEAD = "%FSLAX46Y46*%\n%MOMM*%\n"
PADS = "%ADD10C,1.0*%\nD10*\nX0Y0D03*\nX5000000Y0D03*\n"
DRAW = "D10*\nX0Y0D02*\nX5000000Y0D01*\n"
END = "M02*\n"
PLAIN = HEAD + PADS + DRAW + END
ALLEGRO = "%IR0*IPPOS*OFA0.00000B0.00000*MIA0B0*SFA1.00000B1.00000*%\n"
OUTLINE = "0.5,0,0,0.5,-0.5,0,0.5,0"


def macro(words, more="", flash="%ADD11M*%\nD11*\nX0Y5000000D03*\n"):
    return HEAD + PADS + f"%AMM*\n{words}*%\n" + more + flash + END


# Numbers of six digits, all of them or without trailing zeros, and a region between contours that enclose nothing.
DIGITS = "%FSLAX24Y24*%\n%MOIN*%\n%ADD10C,0.04*%\nD10*\nX000000Y000000D03*\nX-012000Y000500D02*\nX000000D01*\n" + END
SHORT = ["X0Y0D02*\nX0Y0D01*\n", "X0Y0D02*\nX9Y5D01*\nX0Y0D01*\n"]
SQUARE = "X0Y0D02*\nX5000000D01*\nY5000000D01*\nX0Y0D01*\n"


def region(*contours):
    return PLAIN.replace(END, "G36*\n" + "".join(contours) + "G37*\nD10*\nX9Y9D03*\n" + END)


# The kind, a file as a tool writes it, a file of the same copper that `check` or `flatten` takes, and what the sentence has.
COPPER = [
    (table.IDENTITY, HEAD + ALLEGRO + PADS + DRAW + END, PLAIN, "line 3, `OFA0.00000B0.00000` (and 1 more)"),
    (
        table.IDENTITY,
        HEAD + "%SFA1.000B1.000*%\n" + PADS + DRAW + END,
        PLAIN,
        "line 3, `SFA1.000B1.000`, changes nothing",
    ),
    (table.IDENTITY, HEAD + "%MIA+0.0B-0*%\n%IR0.0*%\n%OFA0*%\n" + PADS + DRAW + END, PLAIN, "(and 2 more)"),
    (table.IDENTITY, HEAD + "%SRX1Y1*%\n" + PADS + DRAW + END, PLAIN, "SRX1Y1"),
    (table.IDENTITY, PLAIN.replace("C,1.0", "C,1.0X0.0"), PLAIN, "ADD10C,1.0X0.0"),
    (table.STRAIGHT, PLAIN.replace("Y0D01", "Y0I0J0D01"), PLAIN, "line 9, `X5000000Y0I0J0D01`"),
    (table.STRAIGHT, PLAIN.replace("X5000000Y0D01", "G01X5000000I0J-00D01"), PLAIN, "is straight"),
    (
        table.STATE,
        PLAIN.replace("D10*\nX0Y0D02", "G03*\nD10*\nX0Y0D02*\nG01*\nX0Y0D02"),
        PLAIN,
        "line 7, `G03`, has no effect",
    ),
    (
        table.STATE,
        PLAIN.replace("X5000000Y0D03", "G55X5000000Y0D03").replace("M02", "M01*\nM02"),
        PLAIN,
        "`G55X5000000Y0D03` (and 1 more)",
    ),
    (table.STATE, PLAIN.replace("M02", "M00*\n*\nG04 end*\nM02"), PLAIN, "line 10, `M00`, has no effect"),
    (table.STATE, PLAIN.replace("%MOMM", "%ICAS*MOMM"), PLAIN, "line 2, `ICAS`, has no effect"),
    (table.DIGITS, DIGITS.replace("FSLA", "FSA"), DIGITS, "line 1, `FSAX24Y24`, says another thing of zeros"),
    (table.DIGITS, DIGITS.replace("FSLAX", "FSAN2X").replace("24*", "24D2*"), DIGITS, "FSAN2X24Y24D2"),
    (table.DIGITS, DIGITS.replace("FSLA", "FSTA"), DIGITS, "`FSTAX24Y24`"),
    (
        table.DIGITS,
        DIGITS.replace("FSLA", "FSTA").replace("X-012000Y000500", "X-012Y0005").replace("000000", "0"),
        DIGITS,
        "`FSTAX24Y24`",
    ),
    (
        table.FURTHER_MOVE,
        PLAIN.replace("X0Y0D02*", "X7Y7D02*\nX0Y5*\nG04 x*\n*\nY0*"),
        PLAIN,
        "line 9, `X0Y5` (and 1 more), has no code behind a move",
    ),
    (table.FURTHER_MOVE, PLAIN.replace("X0Y0D02*", "D2*X0Y0*"), PLAIN, "line 8, `X0Y0`, has no code"),
    (
        table.COMMENT_LINES,
        PLAIN.replace("D10*\nX0Y0D02", "G04 words\r\n  of two lines\n*\nD10*\nX0Y0D02"),
        PLAIN,
        "line 7, `G04 words of two lines`, is a comment over several lines",
    ),
    (
        table.NO_AREA,
        region(SHORT[0], SQUARE),
        region(SQUARE),
        "line 12, `X0Y0D01`, begins a contour of one or two edges",
    ),
    (table.NO_AREA, region(SQUARE, SHORT[1]), region(SQUARE), "line 16, `X9Y5D01`, begins a contour"),
    (table.NO_AREA, region(*SHORT, SQUARE, *SHORT), region(SQUARE), "`X0Y0D01` (and 3 more)"),
    (table.NO_AREA, region("X0Y0D01*\n").replace("G36*", "X0Y0D02*\nG36*"), region(""), "line 12, `X0Y0D01`"),
    (table.FORMAT, PLAIN.replace("%FSLAX46Y46*", "%FSLAN2X46Y46D2M2*"), PLAIN, "FSLAN2X46Y46D2M2"),
    (table.END, PLAIN.replace("M02", "M00"), PLAIN, "`M00`, ends the file"),
    (
        table.UNUSED,
        HEAD + "%AMOC8*\n5,1,8,0,0,1.08239X$1,22.5*\n%\n" + PADS + DRAW + END,
        PLAIN,
        "line 3, `AMOC8`, is used by no draw",
    ),
    (
        table.UNUSED,
        HEAD + "%ADD11P,1.0X6*%\nD11*\nX1Y1D02*\n" + PADS + "G36*\nG37*\n" + DRAW + END,
        PLAIN,
        "line 3, `ADD11P,1.0X6`",
    ),
    (table.UNUSED, HEAD + f"%ADD11C,1.{'0' * 30}1*%\n" + PADS + DRAW + END, PLAIN, "line 3, `ADD11C,1.0"),
    (
        table.LINES,
        macro(f"4,1,3,{OUTLINE[:8]}\n{OUTLINE[8:]},0\n"),
        macro(f"4,1,3,{OUTLINE},0"),
        "a macro's word over several lines",
    ),
    (table.LINES, macro("1, 1, 1.0 ,0,\r\n0"), macro("1,1,1.0,0,0"), "joined"),
    (
        table.TURN,
        macro(
            "21,1,1.0,0.5,0,0,$1", flash="%ADD11M,-90.0*%\n%ADD12M,360*%\nD11*\nX0Y5000000D03*\nD12*\nX5000000D03*\n"
        ),
        macro(
            "21,1,1.0,0.5,0,0,0",
            "%AMN*21,1,1.0,0.5,0,0,270*%\n",
            "%ADD11N*%\n%ADD12M*%\nD11*\nX0Y5000000D03*\nD12*\nX5000000D03*\n",
        ),
        "by their values",
    ),
]
# Files that `check` refuses and that stay as they are.
COPPER_STAYS = {
    "an offset": PLAIN.replace("%MOMM*%", "%MOMM*%\n%OFA0.0B0.1*%"),
    "an offset of many digits": PLAIN.replace("%MOMM*%", f"%MOMM*%\n%OFA0.{'1' * 5000}B0*%"),
    "a scale": PLAIN.replace("%MOMM*%", "%MOMM*%\n%SFA1.0B1.00001*%"),
    "axes": PLAIN.replace("%MOMM*%", "%MOMM*%\n%ASAYBX*%"),
    "a centre": PLAIN.replace("Y0D01", "Y0I0J1D01"),
    "an arc of no centre": PLAIN.replace("X5000000Y0D01", "G02*\nX5000000Y0I0J0D01"),
    "a mode that a draw has": PLAIN.replace("X5000000Y0D01", "G02*\nX5000000Y0D01"),
    "a mode that a draw without a code has": PLAIN.replace("X5000000Y0D01", "X1Y0D01*\nG03*\nX5000002"),
    "a mode that a draw of a centre alone has": PLAIN.replace("X5000000Y0D01", "G02*\nI5J0D01"),
    "a polygon that a draw of a centre alone has": PLAIN.replace(
        "%ADD10C,1.0*%", "%ADD10C,1.0*%\n%ADD11P,1.0X6*%"
    ).replace("M02", "D11*\nI5J0D01*\nM02"),
    "a damaged definition": PLAIN.replace("%ADD10C,1.0*%", "%ADD10C,1.0*%\n%ADD11C,1e5*%"),
    "a polygon that a flash has": PLAIN.replace("C,1.0", "P,1.0X6"),
    "a polygon that a draw without a code has": PLAIN.replace(
        "%ADD10C,1.0*%", "%ADD10C,1.0*%\n%ADD11P,1.0X6*%"
    ).replace("Y0D01", "Y0D01*\nD11*\nX12"),
    "a break in a number": macro("1,1,1.\n0,0,0"),
    "a break behind a sign": macro("1,1,1.0,0,-\n0.1"),
    "a turn of 45": macro(
        "21,1,1.0,0.5,0,0,$1", flash="%ADD11M,90*%\n%ADD12M,45*%\nD11*\nX0Y5000000D03*\nD12*\nX5000000D03*\n"
    ),
    "a turn of nearly 90": macro("21,1,1.0,0.5,0,0,$1", flash=f"%ADD11M,90.{'0' * 30}1*%\nD11*\nX0Y5000000D03*\n"),
    "a name for two macros": macro("5,1,8,0,0,1.0,22.5", "%AMM*\n1,1,1.0,0,0*%\n"),
    "zeros that are not said": DIGITS.replace("FSLA", "FSA").replace("X000000D01", "X00000D01"),
    "more digits than the format has": DIGITS.replace("FSLA", "FSTA").replace("X000000D01", "X0000001D01"),
    "more digits, and nothing said of zeros": DIGITS.replace("FSLA", "FSA").replace("X000000D01", "X0000001D01"),
    "zeros of incremental places": DIGITS.replace("FSLA", "FSTI"),
    "two formats": DIGITS.replace("%MOIN*%", "%MOIN*%\n%FSTAX24Y24*%")
    .replace("FSLA", "FSTA", 1)
    .replace("FSTAX24Y24*%\n%MOIN", "FSTAX25Y25*%\n%MOIN"),
    "axes of several formats": DIGITS.replace("FSLAX24Y24", "FSTAX24Y25"),
    "a format without numbers": "%FSAX24Y24*%\n%MOIN*%\n" + END,
    "coordinates behind a flash": PLAIN.replace("D10*\nX0Y0D02", "X1Y1D03*\nX3Y3*\nD10*\nX0Y0D02"),
    "coordinates behind a move and an aperture": PLAIN.replace("X5000000Y0D01", "D10*\nX5000000Y0"),
    "coordinates behind a move and a mode": PLAIN.replace("X5000000Y0D01", "G01X5000000Y0"),
    "coordinates behind a move and a word of a mode": PLAIN.replace("X5000000Y0D01", "G01*\nX5000000Y0"),
    "coordinates behind a move in a region": region("X0Y0D02*\nX5*\nY5*\nX0Y0*\n"),
    "coordinates before all": PLAIN.replace("D10*\nX0Y0D03*\nX5000000Y0D03*\n", "G91*\nX0Y0*\n"),
    "a comment without its star": PLAIN.replace("D10*\nX0Y0D02", "G04 words\nD10*\nX0Y0D02"),
    "a comment without its star before a draw": PLAIN.replace(
        "X5000000Y0D01", "G04 words\n more words\n  X5000000Y0D01"
    ),
    "an attribute in a comment of two lines": PLAIN.replace("D10*\nX0Y0D02", "G04 #@! TO.N,\nA*\nD10*\nX0Y0D02"),
    "a stop before copper": PLAIN.replace("D10*\nX0Y0D02", "M00*\nD10*\nX0Y0D02"),
    "two stops": PLAIN.replace("M02", "M00*\nM00*\nG91*\nM02"),
    "another code of characters": PLAIN.replace("%MOMM", "%ICEB*MOMM"),
    "an open contour of one edge": region("X0Y0D02*\nX9Y5D01*\n", SQUARE),
    "a contour of two edges that ends elsewhere": region("X0Y0D02*\nX9Y5D01*\nX1Y0D01*\n", SQUARE),
    "a contour of a circle": region("X0Y0D02*\nG75*\nG03X0Y0I5J0D01*\nG01*\n"),
    "a contour of an arc and its chord": region("X0Y0D02*\nG75*\nG03X10Y0I5J0D01*\nG01X0Y0D01*\n"),
    "a sign without a partner": PLAIN.replace("%MOMM*%", "%MOMM*%\nG04 100% of it*\n%OFA0.0B0.0*%"),
}


def drill(*lines, header=("METRIC",), tools=("T1C0.4",), front=("M48",), end=("M30",)):
    return "\n".join([*front, *header, *tools, "%", *(lines or ("T1", "X0.0Y0.0", "X5.0Y0.0")), *end, ""])


HOLES = drill()
OWN = "; #@! TA.AperFunction,{},ViaDrill"
TOOLS = (OWN.format("Plated"), "T1C0.4", OWN.format("NonPlated"), "T2C1.0")
MIXED = ("T1", "X0.0Y0.0", "T2", "X3.0Y0.0", "X4.0", "T1", "X5.0")
SLOT = ("T1", "X0.0Y0.0", "T2", "G00X3.0Y3.0", "M15", "G01X4.0Y4.0", "M16", "G05", "X3.0Y1.0G85X3.0Y0.0", "T1", "X5.0")
DRILLS = [
    (
        table.PLATING,
        drill(*MIXED, header=("; #@! TF.FileFunction,MixedPlating,1,1", "METRIC"), tools=TOOLS),
        HOLES,
        "line 2, `; #@! TF.FileFunction,MixedPlating,1,1`, and each tool",
    ),
    (
        table.PLATING,
        drill(*SLOT, header=("; #@! TF.FileFunction,MixedPlating,1,1", "METRIC"), tools=TOOLS),
        HOLES,
        "(T2) are left out",
    ),
    (
        table.PLATING,
        drill(*MIXED, tools=(";TYPE=PLATED", "T1C0.4", ";TYPE=NON_PLATED", "T2C1.0")),
        HOLES,
        "line 5, `;TYPE=NON_PLATED`",
    ),
    (
        table.UNIT,
        drill("G90", "M71", "T1", "X0.0Y0.0", "X5.0Y0.0", header=("METRIC,TZ",)),
        HOLES,
        "line 6, `M71`, says the unit that the header says",
    ),
    (table.UNIT, drill("T1", "X0.0Y0.0", "X5.0Y0.0", header=("M71", "METRIC")), HOLES, "line 2, `M71`"),
    (table.FORM, drill(header=("METRIC,000.000",)), HOLES, "line 2, `METRIC,000.000`"),
    (table.FORM, drill(header=("METRIC,TZ,0000.00",)), HOLES, "the unit alone is kept"),
    (table.FORM, drill(header=("M71",)), HOLES, "`M71`, says more than the unit"),
    (
        table.NUMBERS,
        drill("T1", "X0Y0", "X+5000Y-00", header=("METRIC,TZ,000.000",)),
        HOLES,
        "line 2, `METRIC,TZ,000.000`, says how numbers without a point are read",
    ),
    (
        table.NUMBERS,
        drill("T1", "X0Y0", "X005Y0", header=(";FILE_FORMAT=3:4", "METRIC,LZ")),
        HOLES,
        "(3.4, trailing zeros left out)",
    ),
    (
        table.NUMBERS,
        drill("T1", "X000000Y000000", "X005000", header=("METRIC", "; FORMAT={3:3/ absolute / metric / keep zeros}")),
        HOLES,
        "line 3, `; FORMAT={3:3/",
    ),
    (
        table.HEADERS,
        "%\nM71\nT1C0.4F200S100\nX0.0Y0.0\nX5.0Y0.0\nM30\n",
        HOLES,
        "line 1, `%`, stands behind a header that is written of what the file says",
    ),
    (
        table.HEADERS,
        "; a comment\nT1C.4\nM71\n%\nT01\nX0.0Y0.0\nX5.0Y0.0\nM30\n",
        HOLES,
        "line 2, `T1C.4`, stands behind a header",
    ),
    (
        table.HEADERS,
        drill("T1C0.4", "X0.0Y0.0", "T001C0.4", "X5.0Y0.0", tools=()),
        HOLES,
        "line 3, `%`, stands behind a header",
    ),
    (table.REPEATS, drill("T1", "X0.0Y0.0", "R01X05.0"), HOLES, "repeats a hole: written out as 1 more"),
    (table.ENDS, HOLES.replace("%", "M95"), HOLES, "`M95`, ends the header"),
    (table.MACHINE, drill(tools=("T1F200S65C0.4",)), HOLES, "written as `T1C0.4`"),
    (
        table.MACHINE,
        drill("T1", "F200", "M47,drill", "X0.0Y0.0", "X5.0Y0.0", header=("METRIC", "DETECT,ON", "ATC,OFF")),
        HOLES,
        "`DETECT,ON` (and 3 more)",
    ),
    (
        table.LIFT,
        drill("T1", "G00X0.0Y0.0", "M15", "G01X5.0Y0.0", "M17", "G05"),
        drill("T1", "G00X0.0Y0.0", "M15", "G01X5.0Y0.0", "M16", "G05"),
        "written as `M16`",
    ),
    (
        table.MACHINE,
        drill("T1", "X0.0Y0.0", "X5.0Y0.0", "M00", end=("M30",)),
        HOLES,
        "`M00`, says how the machine runs",
    ),
    (
        table.FORCE,
        drill("/", header=("METRIC", "R,H", "R,T", "R,C", "/"), end=("T1", "X0.0Y0.0", "X5.0Y0.0", "M30")),
        HOLES,
        "line 3, `R,H` (and 4 more)",
    ),
    (
        table.FORCE,
        drill(
            "G40",
            "G93X0Y0.0",
            "FMAT,2",
            "M17",
            "T1",
            "X0.0Y0.0",
            "X5.0Y0.0",
            front=("%", "M48"),
            header=("ICI,OFF", "VER,1", "METRIC"),
            end=("M30", "%"),
        ),
        HOLES,
        "line 1, `%` (and 7 more)",
    ),
]
DRILLS_STAY = {
    "a tool without an attribute": drill(
        *MIXED, header=("; #@! TF.FileFunction,MixedPlating,1,1", "METRIC"), tools=("T1C0.4", *TOOLS[2:])
    ),
    "a tool behind another that is plated": drill(
        *MIXED, header=("; #@! TF.FileFunction,MixedPlating,1,1", "METRIC"), tools=(*TOOLS[2:], *TOOLS[:2], "T3C0.5")
    ),
    "M71 in a file of inches": drill("M71", "T1", "X0.0Y0.0", header=("INCH",)),
    "digits and a number without a point": drill("T1", "X0.0Y5", header=("METRIC,000.000",)),
    "zeros and a number without a point": drill("T1", "X0.0Y5", header=("METRIC,LZ",)),
    "a unit behind the first hole": drill("T1", "X0.0Y0.0", "M71", "X5.0Y0.0", header=()),
    "a header without a tool": "%\nM71\nX0.0Y0.0\nM30\n",
    "a tool of two sizes in the body": "%\nM71\nT1C0.4\nX0.0Y0.0\nT1C0.5\nX5.0Y0.0\nM30\n",
    "a repeat without a hole": drill("T1", "R3X1.0", "X5.0Y0.0"),
    "a repeat behind a slot": drill("T1", "X0.0Y0.0G85X1.0Y0.0", "R3X1.0"),
    "a place that goes on from a repeat": drill("T1", "X0.0Y0.0", "R1X5.0", "Y1.0"),
    "repeats that a comment counts otherwise": drill(
        "T1",
        "X0.0Y0.0",
        "R2X5.0",
        tools=(";T01 Holesize 1. = 0.4 Tolerance = +0.0/-0.0 PLATED MM Quantity = 2", "T1C0.4"),
    ),
    "tools cleared": drill(tools=("T1C0.4", "R,T")),
    "a stop between holes": drill("T1", "X0.0Y0.0", "M00", "X5.0Y0.0"),
    "another zero": drill("G93X0Y1.0", "T1", "X0.0Y0.0"),
    "increments": drill(header=("ICI,ON", "METRIC")),
    "format 1": drill(header=("FMAT,1", "METRIC")),
    "a sign in the body": drill("T1", "X0.0Y0.0", "%"),
    "a tool of two sizes": drill(tools=("T1C0.4C0.5",)),
}


def mended_drill(data):
    """A drill file as `show` mends it, with nothing beside it."""
    return drill_mends.mended(data, drill_numbers.settled("f.drl", data, ""))


def tables(text):
    """A report without the numbers of commands and lines."""
    return [
        " ".join(line.split()[:3] + line.split()[4:]) if line.startswith("source ") else line
        for line in text.splitlines()
    ]


class Mends(common.Case):
    def setUp(self):
        super().setUp()
        self.program = common.program()

    def flat(self, folder, name, text):
        """A copper file as a layer takes it: by `flatten` where it has macros."""
        self.write(f"{folder}/{name}", text)
        if "%AM" in (text if isinstance(text, str) else text.decode()):
            status, text, notes = self.run_words([self.program, "flatten", name], self.path(folder))
            self.assertEqual((status, notes), (0, "boardnet: flattened\n"), name)
            self.write(f"{folder}/{name}", text)

    def report(self, folder, copper, drills):
        """What `check` says of files, each a layer of its own or a drill file of the first."""
        for number, text in enumerate(copper):
            self.flat(folder, f"{number}.gbr", text)
        for number, text in enumerate(drills):
            self.write(f"{folder}/{number}.drl", text)
        self.write(
            f"{folder}/n.ipc", "P  UNITS CUST 1\n327A                                  A01X+000000Y+000000\n999\n"
        )
        drilled = [{"file": f"{number}.drl", "from": 1, "to": 1} for number in range(len(drills))]
        self.write(
            f"{folder}/m.json",
            json.dumps({"copper": [f"{n}.gbr" for n in range(len(copper))], "drills": drilled, "netlist": "n.ipc"}),
        )
        return self.run_words([self.program, "check", "m.json"], self.path(folder))

    def refusal(self, text, kind):
        """Has `check` refuse a file as it is."""
        drills = [{"file": "f.drl", "from": 1, "to": 1}] if kind == "drl" else []
        self.write("one/f.gbr", text if kind == "gbr" else PLAIN)
        self.write("one/f.drl", text)
        self.write("one/m.json", json.dumps({"copper": ["f.gbr"], "drills": drills, "netlist": "n.ipc"}))
        status, out, _ = self.run_words([self.program, "check", "m.json"], self.path("one"))
        self.assertEqual((status, out), (3, ""), text)

    def one(self, mended, text, kind, words):
        """The only mend of a file, which `check` refuses as it is unless it mixes holes without saying so."""
        data, mends = mended(text.encode())
        self.assertEqual([it.kind for it in mends], [kind], text)
        self.assertIn(words, table.described("f", mends[0]).words)
        self.assertEqual(mended(data), (data, []))
        return data

    def test_same_boards(self):
        """Every mended file with its kind, and one report of all that is the same as that of the files that `check` takes."""
        copper = [self.one(copper_mends.mended, text, kind, words) for kind, text, _, words in COPPER]
        drills = [self.one(mended_drill, text, kind, words) for kind, text, _, words in DRILLS]
        status, out, notes = self.report("mended", copper, drills)
        self.assertIn(status, (0, 1), notes)
        plain = self.report("plain", [row[2] for row in COPPER], [row[2] for row in DRILLS])
        self.assertEqual((status, tables(out)), (plain[0], tables(plain[1])))
        # Contours that are cut up, drill files in the Gerber format and names of netlists have tests of their own.
        kinds = [row.kind for row in table.ROWS]
        self.assertEqual(
            {*kinds[: kinds.index(table.ALIAS)]} - {table.CONTOUR, table.GERBER_DRILLS},
            {row[0] for row in COPPER + DRILLS},
        )

    def test_places_keep_their_numbers(self):
        """Commands, lines and their counts are those of the file as it was."""
        for kind, text, _, _ in COPPER + DRILLS:
            mended = copper_mends.mended if text.startswith("%") and "*" in text else mended_drill
            if kind in (table.HEADERS, table.REPEATS):
                continue
            data = mended(text.encode())[0].decode()
            self.assertEqual(data.count("\n"), text.count("\n"), text)
            if mended is copper_mends.mended and kind != table.TURN:
                self.assertEqual(data.count("*"), text.count("*"), text)

    def test_where_a_hole_goes_on_from(self):
        """What is no place gives no coordinate: a plated hole goes on from the unplated one before it."""
        text = drill(
            "T2",
            "X3.0Y7.0",
            "G93X0.0Y0.0",
            "T1",
            "Y1.0",
            header=("; #@! TF.FileFunction,MixedPlating,1,1", "METRIC"),
            tools=TOOLS,
        )
        self.assertEqual(drill_mends.mended(text.encode())[0].split(b"\n")[-6:-2], [b"", b"", b"T1", b"X3.0Y1.0"])

    def test_holes_called_unplated(self):
        """Holes that the file calls unplated and that nothing takes out: the line of the first. None where `check` refuses the file, or it is mended."""
        plated = "; #@! TF.FileFunction,Plated,1,1"
        kinds = (";TYPE=PLATED", "T1C0.4", ";TYPE=NON-PLATED", "T2C1.0")
        rows = [
            (drill(*MIXED, header=(plated, "METRIC"), tools=TOOLS), 12),
            (drill(*MIXED, tools=("T1C0.4", *TOOLS[2:])), 10),
            (drill("T1", "X0.0Y0.0", ";TYPE=NON_PLATED", "T2", "X3.0Y0.0", tools=("T1C0.4", "T2C1.0")), 10),
            (drill("T1", "X0.0Y0.0", "T2", header=(plated, "METRIC"), tools=TOOLS), 0),
            (drill(*MIXED, tools=TOOLS), 0),
            (drill(*MIXED, tools=kinds), 0),
            (
                drill(
                    *MIXED, header=("; #@! TF.FileFunction,MixedPlating,1,1", "METRIC"), tools=("T1C0.4", *TOOLS[2:])
                ),
                0,
            ),
            (HOLES, 0),
        ]
        for text, line in rows:
            self.assertEqual(drill_plating.unplated_hole(text.encode()), line, text)
        for text in (drill(*MIXED, tools=kinds), drill(*MIXED, tools=TOOLS)):
            self.assertNotIn(b"X3.0", drill_mends.mended(text.encode())[0])

    def test_plating_in_other_words(self):
        """What Allegro, Fritzing and Altium say in comments is read: of tools by their numbers, of those behind a word, and of no other."""
        fritzing = ("; NON-PLATED HOLES START AT T1", "; THROUGH (PLATED) HOLES START AT T100", "M48")
        size = ";{}Holesize {}. = 63.0 Tolerance = +0.0/-0.0 {} MILS Quantity = 4"
        two = ("T1C0.4", "T8C1.0")
        rows = [
            (
                drill(tools=(size.format("T01 ", 1, "PLATED"), size.format("T08 ", 8, "NON_PLATED"), *two)),
                {1: True, 8: False},
            ),
            (
                drill(tools=(size.format(" ", 1, "PLATED"), "T1C0.4", size.format(" ", 8, "NON_PLATED"), "T8C1.0")),
                {1: True, 8: False},
            ),
            (
                drill(tools=(size.format(" ", 1, "PLATED"), size.format(" ", 8, "NON PLATED"), *two)),
                {1: True, 8: False},
            ),
            (
                drill(tools=(size.format(" ", 1, "PLATED"), "T1C0.4", size.format(" ", 2, "NON_PLATED"), "T8C1.0")),
                {1: True, 8: False},
            ),
            (
                drill(tools=(size.format(" ", 8, "PLATED"), "T1C0.4", size.format(" ", 1, "NON_PLATED"), "T8C1.0")),
                {1: None, 8: None},
            ),
            (drill(tools=(size.format("T08 ", 8, "OPTIONAL"), *two)), {1: None, 8: None}),
            (
                drill(front=fritzing, tools=("T1C0.4", "T99C0.4", "T100C0.4", "T101C1.0")),
                {1: False, 99: False, 100: True, 101: True},
            ),
            (drill(front=fritzing[1:], tools=("T1C0.4", "T100C0.4")), {1: None, 100: True}),
            (drill(tools=("T1C0.4", ";TYPE=NON_PLATED", "T2C1.0")), {1: None, 2: False}),
            (drill(tools=(";TYPE=PLATED", "T1C0.4", ";TYPE=OTHER", "T2C1.0")), {1: True, 2: None}),
            (drill(tools=(";TYPE=PLATED", OWN.format("NonPlated"), "T1C0.4")), {1: None}),
            (
                drill(
                    tools=(
                        ";#@!TA.AperFunction,NonPlated,NPTH",
                        "T1C+0.5",
                        ";\t#@! \tTA.AperFunction,NonPlated",
                        "T2F1S2C+.5H3",
                        "; #@! TA.AperFunction,NonPlatedX",
                        "T3C-0.5",
                    )
                ),
                {1: False, 2: False, 3: None},
            ),
            (
                drill(tools=(OWN.format("NonPlated"), "T1C0.4", "T2C0.5", OWN.format("Plated"), "T3C0.6", "T4C0.7")),
                {1: False, 2: False, 3: True, 4: None},
            ),
            (
                drill(tools=(OWN.format("NonPlated"), "; #@! TD.Own", "T1C0.4", "; #@! TD.AperFunction", "T2C0.5")),
                {1: False, 2: None},
            ),
            (drill(tools=(OWN.format("NonPlated"), "T1C0.4", "; #@! TD", "T2C0.5")), {1: False, 2: None}),
            (
                drill(tools=(size.format("T01 ", 1, "NOT PLATED"), size.format("T08 ", 8, "NON  PLATED"), *two)),
                {1: False, 8: False},
            ),
        ]
        for text, tools in rows:
            self.assertEqual(drill_plating.Plating(text.encode()).tools, tools, text)
        body = ("T1", "X0.0Y0.0", "T8", "X3.0Y0.0")
        self.assertEqual(
            drill_plating.unplated_hole(drill(*body, tools=(size.format("T08 ", 8, "NON_PLATED"), *two)).encode()), 10
        )
        told = drill(*body, tools=(size.format("T01 ", 1, "PLATED"), size.format("T08 ", 8, "NON_PLATED"), *two))
        self.assertNotIn(b"X3.0", drill_mends.mended(told.encode())[0])
        # A word in the body that says another thing than the tool's is no mend.
        torn = told.replace("X0.0Y0.0", ";TYPE=NON_PLATED\nX0.0Y0.0")
        self.assertEqual((drill_mends.mended(torn.encode())[1], drill_plating.unplated_hole(torn.encode())), ([], 10))
        behind = drill(*body, ";TYPE=NON_PLATED", tools=two)
        self.assertEqual(
            (drill_plating.unplated_hole(behind.encode()), drill_plating.Plating(behind.encode()).is_unplated_alone()),
            (0, False),
        )
        # Behind the tools and before the holes it is said of these.
        before = drill(*body, tools=(*two, ";TYPE=NON_PLATED"))
        self.assertEqual(
            (drill_plating.unplated_hole(before.encode()), drill_plating.Plating(before.encode()).is_unplated_alone()),
            (8, True),
        )
        self.assertEqual(drill_plating.unplated_hole(before.replace(";TYPE=NON_PLATED", ";TYPE=").encode()), 0)

    def test_functions_that_check_passes_over(self):
        """A file function in another form than the one that `check` reads, judged as that would be; the one form is left to `check`."""
        for lead in (";#@! ", "; #@!", ";  #@!  ", ";\t#@! "):
            for function, kind in (
                ("NonPlated,1,1", "drill 12 NotPlated"),
                ("MixedPlating,1,1", "drill 13 MixedPlating"),
                ("Plated,1,2,PTH", "drill 11 WrongSpan"),
                ("Plated", "drill 11 WrongSpan"),
                ("Drillmap", "drill 2 BadLine"),
                ("Plated,1,1,PTH", None),
            ):
                for text, line in (
                    (drill(header=(f"{lead}TF.FileFunction,{function}", "METRIC")), 2),
                    (drill(end=("M30", f"{lead}TF.FileFunction,{function}")), 9),
                ):
                    self.assertEqual(drill_plating.unread_function(text.encode(), 1, 1), kind and (kind, line), text)
        self.assertIsNone(
            drill_plating.unread_function(
                drill(header=("; #@! TF.FileFunction,NonPlated,1,1", "METRIC")).encode(), 1, 1
            )
        )
        told = drill(*MIXED, header=(";#@! TF.FileFunction,MixedPlating,1,1", "METRIC"), tools=TOOLS)
        self.assertIsNone(drill_plating.unread_function(told.encode(), 1, 1))
        self.assertIn(b"; #@! TF.FileFunction,Plated,1,1\n", drill_mends.mended(told.encode())[0])

    def test_only_what_is_refused(self):
        for kind, text, *_ in COPPER:
            self.refusal(text, "gbr")
        for kind, text, *_ in DRILLS:
            if "TYPE" not in text:
                self.refusal(text, "drl")

    def test_what_stays(self):
        for name, text in COPPER_STAYS.items():
            with self.subTest(name):
                self.assertEqual(copper_mends.mended(text.encode()), (text.encode(), []))
                self.refusal(text, "gbr")
        for name, text in DRILLS_STAY.items():
            with self.subTest(name):
                self.assertEqual(drill_mends.mended(text.encode()), (text.encode(), []))
                self.refusal(text, "drl")

    def test_long_words(self):
        """What has no star, and many blanks, are looked at once; so are the apertures of many macros."""
        many = "".join(f"%AMM{k}*1,1,1,0,0*%%ADD{k + 10}M{k}*%D{k + 10}*X0Y0D03*\n" for k in range(10_000))
        for text in (
            HEAD + many + END,
            "G55" + "x" * 100_000,
            "G55*" + " " * 100_000,
            "%OF" + " " * 100_000 + "%",
            macro("1,1,1" + " " * 100_000 + "0,0,0"),
        ):
            began = time.process_time()
            self.assertEqual(copper_mends.mended(text.encode()), (text.encode(), []))
            self.assertLess(time.process_time() - began, 5)

    def test_examples_stay(self):
        for folder, _, names in os.walk(common.EXAMPLES):
            for name in names:
                with open(os.path.join(folder, name), "rb") as file:
                    data = file.read()
                mended = (
                    copper_mends.mended if name.endswith(".gbr") else mended_drill if name.endswith(".drl") else None
                )
                if mended and b"%AM" not in data:
                    self.assertEqual(mended(data), (data, []), name)


class Words(common.Case):
    def test_guide_has_the_table(self):
        with open(os.path.join(common.TOP, "docs", "using", "mends.md"), encoding="utf-8") as file:
            guide = file.read()
        self.assertIn("".join(f"| {row.sees} | {row.writes} | {row.why} |\n" for row in table.ROWS), guide)

    def test_copies(self):
        self.assertEqual(
            (mended_files.name_beside("a/top.gbr"), mended_files.name_beside("top")), ("a/top.mended.gbr", "top.mended")
        )
        self.assertTrue(mended_files.is_copy("top.mended.gbr", ["top.gbr"]))
        self.assertFalse(mended_files.is_copy("top.mended.gbr", ["bot.gbr"]))

    def test_ways_out(self):
        kicad = b"M48\n; DRILL file {KiCad 9.0.2}\nMETRIC\nT1C0.4\n%\nT1\nX0Y0\nM30\n"
        rows = [
            (
                "p.drl: drill 6 ImpliedDecimals at line 7, byte 59",
                kicad,
                "; to export: KiCad: Generate Drill Files, zeros format 'Decimal format' (kicad-cli: --excellon-zeros-format decimal)",
            ),
            (
                "p.drl: drill 6 ImpliedDecimals at line 7, byte 59",
                kicad.replace(b"KiCad", b"other"),
                "; to export: drill files with a decimal point in each number",
            ),
            (
                "t.gbr: Gerber 13 Block at command 2, byte 8",
                b"G04 a*\n%ABD10*%",
                "; line 2 of t.gbr; to export: copper without aperture blocks (AB)",
            ),
            (
                "t.gbr: Gerber 9 Incremental at command 2, byte 5",
                b"G75*\nG91*",
                "; line 2 of t.gbr; to export: absolute coordinates",
            ),
            ("t.gbr: Gerber 1 BadWord at command 1, byte 0", b"", "; line 1 of t.gbr"),
            ("differs, opens 1", b"", ""),
        ]
        for line, data, wanted in rows:
            refusal = refusals.of_line(line)
            answer = Answer(3, STOPPED, "", refusal, advice=export_advice.way_out(refusal, lambda _: data))
            self.assertEqual(sentences.line(answer), wanted)

    def test_tools(self):
        """The tool that a file names, and what its user is told; a tool without a word of its own gets that for all."""
        rows = [
            (
                b"; DRILL file {KiCad 9.0.2} date",
                "KiCad",
                "MixedPlating",
                "KiCad: Generate Drill Files, 'PTH and NPTH in single file' off",
            ),
            (
                b"; #@! TF.GenerationSoftware,LibrePCB,LibrePCB,1.2.0",
                "LibrePCB",
                "MixedPlating",
                "plated and unplated holes in files",
            ),
            (b"G04 horizon*\n%TF.GenerationSoftware,Horizon EDA,2.5*%", "Horizon EDA", "BadFormat", "RS-274X or X2"),
            (
                b";Layer_Color=9474304\n;FILE_FORMAT=4:4",
                "Altium Designer",
                "MixedPlating",
                "Altium Designer: NC Drill Setup, 'Generate separate",
            ),
            (
                b"%TF.GenerationSoftware,Altium Limited,Altium Designer,23.1*%",
                "Altium Designer",
                "BadFormat",
                "Altium Designer: Gerber Setup, Advanced",
            ),
            (
                b"G04 File Origin:  Cadence Allegro 17.4*",
                "Allegro",
                "NegativeFile",
                "Allegro: Artwork Control Form, Film Control",
            ),
            (b"M48\n;CODE  : ASCII\n; Holesize 1. = 12.0 PLATED MILS", "Allegro", "BadLine", "Allegro: NC Parameters"),
            (
                b"G04 EAGLE Gerber RS-274X export*",
                "EAGLE",
                "MissingFormat",
                "EAGLE: CAM Processor, device GERBER_RS274X",
            ),
            (b"%TF.GenerationSoftware,Autodesk,EAGLE,9.6.2*%", "EAGLE", "Block", "copper without aperture blocks"),
            (
                b"%TF.GenerationSoftware,Autodesk,Fusion Electronics,1*%",
                "Fusion",
                "Block",
                "copper without aperture blocks",
            ),
            (b"%TF.GenerationSoftware,Novarm,DipTrace,4.3*%", "DipTrace", "Incremental", "absolute coordinates"),
            (b"G04 PROTEUS GERBER X2 FILE*", "Proteus", "Incremental", "absolute coordinates"),
            (b"G04 EasyEDA v6.5.1*", "EasyEDA", "Incremental", "absolute coordinates"),
            (b"G04 Creator: pcb 20140316 *", "gEDA pcb", "Incremental", "absolute coordinates"),
            (b"G04 gerbv version 2.9.6 *", "gerbv", "Incremental", "absolute coordinates"),
            (b"G04 made by hand*", "", "Incremental", "absolute coordinates"),
        ]
        for data, tool, kind, words in rows:
            self.assertEqual(cad_tools.tool_of(data), tool, data)
            self.assertTrue(cad_tools.way(kind, tool).startswith(words), (data, cad_tools.way(kind, tool)))

    def test_tools_with_words_of_their_own(self):
        """Each tool that has words of its own is one that files can name."""
        known = {tool.name for tool in cad_tools.TOOLS} | {""}
        self.assertEqual(
            [
                tool
                for rows in (*cad_tools.WAYS.values(), *cad_tools.SETTINGS.values())
                for tool in rows
                if tool not in known
            ],
            [],
        )


def is_in(contour, x, y):
    """Whether a place is on an edge of a contour or enclosed by even and odd."""
    within = False
    for (a, b), (p, q) in zip(contour, contour[1:] + contour[:1]):
        side = (p - a) * (y - b) - (x - a) * (q - b)
        if side == 0 and min(a, p) <= x <= max(a, p) and min(b, q) <= y <= max(b, q):
            return True
        if (a <= x) != (p <= x) and (side < 0) == (p > a):
            within = not within
    return within


COMB = [(0, 0), (0, 9), (2, 9), (2, 2), (4, 2), (4, 9), (6, 9), (6, 2), (8, 2), (8, 9), (10, 9), (10, 0), (0, 0)]


class Contours(common.Case):
    """Contours cut at a lower limit: the parts' copper is compared with the whole's at many places, on edges and beside them."""

    def setUp(self):
        super().setUp()
        for name, value in (("MOST_EDGES", 8), ("ON_A_SIDE", 3)):
            self.addCleanup(setattr, chords, name, getattr(chords, name))
            setattr(chords, name, value)

    def made(self, chance):
        """A contour of some corners: a comb, or at random, so that it meets and crosses itself."""
        unit, count = 84, chance.randrange(9, 16)
        if chance.random() < 0.4:
            corners = [
                (x, y)
                for k in range(5)
                for x, y in (
                    (2 * k, 0),
                    (2 * k, 4 + chance.randrange(3)),
                    (2 * k + 1, 4 + chance.randrange(3)),
                    (2 * k + 1, 1),
                )
            ]
        else:
            corners = [(chance.randrange(7), chance.randrange(7)) for _ in range(count)]
        start = chance.randrange(len(corners))
        return [(x * unit, y * unit) for x, y in corners[start:] + corners[:start]][:: chance.choice((1, -1))]

    def test_same_copper(self):
        chance, cut = random.Random(7), 0
        for _ in range(300):
            contour = self.made(chance)
            parts = chords.cut(contour)
            if parts is None or len(parts) == 1:
                continue
            cut += 1
            self.assertEqual(parts[0][0], (contour[0], 0))
            spots = [[spot for spot, _ in part] for part in parts]
            self.assertTrue(all(3 <= len(part) <= 8 for part in spots))
            for _ in range(40):
                step = chance.choice((12, 21, 28, 42))
                x, y = (chance.randrange(-42, 900) // step * step for _ in "xy")
                self.assertEqual(any(is_in(part, x, y) for part in spots), is_in(contour, x, y), (contour, spots, x, y))
        self.assertGreater(cut, 40)

    def test_cut_ins(self):
        """A frame with a hole that is joined to its border by an edge there and back: the chord parts the two."""
        hole = [(30, 50), (40, 60), (60, 60), (70, 50), (60, 40), (40, 40), (30, 50)]
        contour = [(0, 0), (100, 0), (100, 100), (0, 100), (0, 50), *hole, (0, 50)]
        parts = chords.cut(contour)
        self.assertGreater(len(parts), 1)
        spots = [[spot for spot, _ in part] for part in parts]
        for x in range(-2, 103):
            for y in range(-2, 103, 3):
                self.assertEqual(any(is_in(part, x, y) for part in spots), is_in(contour, x, y), (x, y))

    def test_no_chord(self):
        """A star whose every chord crosses an edge stays, as does what lies on one line."""
        ring = [
            (0, 1000),
            (541, 841),
            (910, 415),
            (990, -142),
            (756, -655),
            (282, -959),
            (-282, -959),
            (-756, -655),
            (-990, -142),
            (-910, 415),
            (-541, 841),
        ]
        self.assertIsNone(chords.cut([ring[5 * k % 11] for k in range(11)]))
        self.assertIsNone(chords.cut([(k, 0) for k in range(12)]))

    def test_words_and_not_bytes(self):
        """A comment that ends with a region's words begins and ends none, and one with a word that erases is no such word."""
        from boardnet_show.intake.mends import long_contours

        for module in (copper_mends, long_contours):
            self.addCleanup(setattr, module, "MOST_EDGES", module.MOST_EDGES)
            module.MOST_EDGES = 8
        edges = "X0Y0D02*\n" + "".join(f"X{1000 * x}Y{1000 * y}D01*\n" for x, y in COMB[1:])
        small = "G36*\nX0Y0D02*\nX1000Y0D01*\nX1000Y1000D01*\nX0Y0D01*\nG37*\n"
        for head, foot in (
            ("G04 a G36*\n", "G04 b G37*\n"),
            ("G04 a G36*\n", small),
            ("G04G36*\n", "G04 a*G04 G37*\n"),
            ("G37*\n", "G37*\n"),
        ):
            text = (HEAD + PADS + head + edges + foot + END).encode()
            self.assertEqual(copper_mends.mended(text), (text, []), head)
        for body in (edges, "G04 G37*\n" + edges, edges.replace("D01*\n", "D01*\nG04 LPC*\n", 1), edges + "G04 G03*\n"):
            text = (HEAD + "G04 no LPC*\nG04*\nG04 SRX2*\n" + "G36*\n" + body + "G37*\n" + PADS + END).encode()
            data, mends = copper_mends.mended(text)
            self.assertEqual([it.kind for it in mends], [table.CONTOUR], body)
            self.assertTrue(data.endswith(b"G37*\nM02*\n"))
        ends = (HEAD + "G36*\n" + edges + "G37*\n" + PADS + "M02*\nG04 M02*\n").encode()
        self.assertEqual(copper_mends.mended(ends), (ends, []))

    def test_the_name_in_force(self):
        """The other parts have the net name in force behind the contour, by the words that give one."""
        from boardnet_show.intake.mends import long_contours

        names = "%TO.N,A*%\nG04 TO.N,B*\n%INTO.N,C*%\n"
        for text, name in (
            (names, b"A"),
            (names + "%TO.P,U1,1*%\n", b"A"),
            (names + "%TD.P*%\n", b"A"),
            (names + "%TD*%\n", b""),
            (names + "%TD.N*%\n", b""),
            (names + "%TO.N,D*TO.P,U1,2*%\n", b"D"),
            (names + "%TD.N*TO.N,E,F*%\n", b"E,F"),
            ("G04 TD*\n", b""),
        ):
            self.assertEqual(
                long_contours.name_before(text.encode() + b"%TO.N,Z*%", len(text)),
                b"%TD*%\n" + (b"%TO.N," + name + b"*%\n" if name else b""),
                text,
            )

    def test_file(self):
        """The first part stays in its words, the others follow at the end with the net name of the contour."""
        from boardnet_show.intake.mends import long_contours

        for module in (copper_mends, long_contours):
            self.addCleanup(setattr, module, "MOST_EDGES", module.MOST_EDGES)
            module.MOST_EDGES = 8
        text = (
            HEAD
            + "%TO.N,GND*%\nG36*\nX0Y0D02*\n"
            + "".join(f"X{1000 * x}Y{1000 * y}D01*\n" for x, y in COMB[1:])
            + "G37*\n%TO.N,SIG*%\n"
            + PADS
            + END
        ).encode()
        data, mends = copper_mends.mended(text)
        self.assertEqual([(it.kind, it.line) for it in mends], [(table.CONTOUR, 6)])
        before, after = data.split(b"%TD*%\n%TO.N,GND*%\nG01*\nG36*\n")
        self.assertEqual((before.count(b"*"), before.count(b"\n")), (text.count(b"*") - 1, text.count(b"\n") - 1))
        self.assertTrue(after.endswith(b"G37*\nM02*\n"))
        self.assertEqual(copper_mends.mended(data), (data, []))
        for change in (b"%LPC*%\n", b"%SRX2Y1I5.0J0.0*%\n"):
            other = text.replace(b"G36", change + b"G36")
            self.assertEqual(copper_mends.mended(other), (other, []))


class Netlists(unittest.TestCase):
    """Names that stand for one whole name are one net."""

    def told(self, *rows):
        """The names that are written, and what is told; rows are lines of parameters, or names of records."""
        lines = [
            row if row.startswith("P") else f"327{row:<14}   U1    -1          A01X+000000Y+000000" for row in rows
        ]
        text = "\r\n".join(["P  UNITS CUST 1", *lines, "999", ""]).encode()
        data, mends = netlist_mends.mended(text)
        self.assertEqual((len(data), netlist_mends.mended(data)), (len(text), (data, [])))
        names = [line[3:17].strip().decode() for line in data.split(b"\n") if line[:3] == b"327"]
        return names, [(it.line, it.text, it.more) for it in mends], netlist_mends.unclear(text)

    def test_one_name(self):
        two = ["P  NNAME1  a whole name", "P  NNAME2  a whole name ", "P\tNNAME3\tGND"]
        self.assertEqual(
            self.told(*two, "NNAME1", "NNAME2", "X", "NNAME2"),
            (["NNAME1", "NNAME1", "X", "NNAME1"], [(6, "NNAME2", 1)], ""),
        )
        self.assertEqual(self.told(*two, "NNAME3", "GND"), (["GND", "GND"], [(5, "NNAME3", 0)], ""))
        self.assertEqual(self.told("P  NNAME1 N/C", "NNAME1"), (["N/C"], [(3, "NNAME1", 0)], ""))

    def test_stays(self):
        """Other letters, an alias that no record or one alone has, and none."""
        for rows in (
            ["P  NNAME1 a name", "P  NNAME2 A name", "NNAME1", "NNAME2"],
            ["P  NNAME1 a", "P  NNAME2 a", "NNAME1", "NNAME1"],
            ["P  NNAME1", "P  NNAME2", "NNAME1", "NNAME2"],
            ["NNAME1", "NNAME2"],
            ["P  NNAME1 \u00e4", "P  NNAME2 \u00f6", "NNAME1", "NNAME2"],
        ):
            self.assertEqual(self.told(*rows), ([row for row in rows if not row.startswith("P")], [], ""))

    def test_unclear(self):
        long = "x" * 62
        chain = "NNAME1 stands for NNAME2, which stands for another name"
        for rows, why in (
            (["P  NNAME1 a", "P  NNAME1 b", "NNAME1"], "NNAME1 stands for two names"),
            (["P  NNAME1 NNAME2", "P  NNAME2 X", "NNAME1", "X"], chain),
            (["P  NNAME1 NNAME2", "P  NNAME2 X", "NNAME1", "NNAME2"], chain),
            (
                [f"P  NNAME1 {long}", f"P  NNAME2 {long}", "NNAME1", "NNAME2"],
                "NNAME1 and NNAME2 stand for one name that fills its line, so that it may be cut",
            ),
            (
                ["P  NNAME1 NNAME2", "NNAME1", "NNAME2"],
                "NNAME1 and NNAME2 look like one name, but no line says what NNAME2 stands for",
            ),
        ):
            self.assertEqual(self.told(*rows), ([row for row in rows if not row.startswith("P")], [], why))
        self.assertEqual(self.told(f"P  NNAME1 {long}", "NNAME1")[2], "")
