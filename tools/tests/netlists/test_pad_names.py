"""Boards judged by the names that their copper gives its own pads: the netlist that is made, the answer, and what a netlist says otherwise."""
import json
import os
import unittest

from boardnet_show.formats import ipc356 as read
from boardnet_show.geometry.pieces import Area, Capsule
from boardnet_show.netlists import pad_names, pad_places, pin_names
from tests.fixtures import made
from tests.fixtures.common import SURE
from tests.fixtures.made import draw, drill, flash, gerber, label, manifest, netlist, record, region

LONG = "Net-(R1-Pad2) of sheet 2"
FIRST = "there is no netlist, so the names of its own pads alone are asked: "


def pin(component, number, name, *rest):
    return [f"%TO.P,{component},{number}*%", *label(name), *rest]


def layer(number, side, *lines):
    return f"%TF.FileFunction,Copper,L{number},{side}*%\n" + gerber(*lines)


# R1 and J1000001: a through pin of GND, a surface pin with a long name on an uneven place, and one of VCC below.
TOP = [
    *pin("R1", "1", "GND"),
    *flash(10, (0, 0)),
    *pin("R1", "2,IN", LONG),
    *flash(12, (10.000123, 0)),
    *pin("J1000001", "GATE1", LONG),
    *flash(10, (10, 5)),
    "%TD*%",
    *label("GND"),
    *draw(11, (0, 0), (0, 5)),
    *label(LONG),
    *draw(11, (10, 0), (10, 5)),
]
BOTTOM = [
    *pin("R1", "1", "GND"),
    *flash(10, (0, 0)),
    *pin("U1", "1", "GND"),
    *flash(12, (5, 0)),
    "%TD*%",
    *label("GND"),
    *draw(11, (0, 0), (5, 0)),
    *pin("U1", "2", "VCC"),
    *flash(12, (5, 5)),
]
HOLES = "; #@! TF.FileFunction,Plated,1,2,PTH\n"
FILES = {
    "top.gbr": layer(1, "Top", *TOP),
    "bot.gbr": layer(2, "Bot", *BOTTOM),
    "p.drl": drill((0.0, 0.0)).replace("METRIC", HOLES + "METRIC", 1),
}
POINTS = [
    record("GND", "R1.1", 0, 0, "00"),
    record("NET-(R1-PAD2)O", "R1.2", 10, 0),
    record("NET-(R1-PAD2)O", "J10000.GATE", 10, 5),
    record("GND", "U1.1", 5, 0, "02"),
    record("VCC", "U1.2", 5, 5, "02"),
]


class Labels(made.Case):
    def told(self, files, *words, program=made.STAND_IN, folder="board"):
        self.board(files, folder)
        status, out, notes = self.show(folder, *words, "--json", "b.json", program=program)
        self.assertEqual(notes, "")
        return status, out, json.loads(self.read("b.json"))["boards"][0]

    def test_agrees(self):
        for program in self.over_both():
            status, out, board = self.told(FILES, program=program)
            self.assertEqual(
                (status, out.splitlines()[0]),
                (0, f"PASS board: {FIRST}copper and their own names agree at all 6 test points. {SURE}"),
            )
            self.assertEqual((board["points"], board["own_names"], board["netlist"]), (6, True, "names.ipc"))
            self.assertIn("names: 6 test points of 3 nets by the attributes of top.gbr and bot.gbr ", out)
        self.assertEqual(sorted(os.listdir(self.path("board"))), sorted(FILES))

    def test_kept(self):
        """The kept package says the same again, and names pins and nets whole."""
        self.told(FILES, "--keep", "kept")
        self.assertEqual(
            self.show("kept")[:2],
            (0, f"PASS kept: {FIRST}copper and their own names agree at all 6 test points. {SURE}\n"),
        )
        self.assertEqual(
            sorted(os.listdir(self.path("kept"))), ["bot.gbr", "m.json", "names.ipc", "p.drl", "report.txt", "top.gbr"]
        )
        records = read.records(self.read("kept/names.ipc").encode())
        self.assertEqual(
            [(it.component, it.pin) for it in records],
            [("R1", "1"), ("R1", "2"), ("J1000001", "GATE1"), ("R1", "1"), ("U1", "1"), ("U1", "2")],
        )
        self.assertEqual(
            read.spoken(["GND", "NNAME2", "VCC"], read.aliases(self.read("kept/names.ipc").encode())),
            ["GND", LONG, "VCC"],
        )

    def test_differs(self):
        """A track that is lost, and one that joins too much, with whole names."""
        cut = {**FILES, "top.gbr": layer(1, "Top", *TOP[:-4])}
        joined = {**FILES, "bot.gbr": layer(2, "Bot", *BOTTOM, *draw(11, (5, 0), (5, 5)))}
        for program in self.over_both():
            status, out, board = self.told(cut, program=program)
            self.assertEqual((status, out.startswith(f"FAIL board: {FIRST}1 open. ")), (1, True), out)
            self.assertEqual(board["findings"][0]["names"], [LONG])
            self.assertIn("J1000001 pin GATE1 (top, 10.000, 5.000 mm) is not joined to R1 pin 2", out)
            status, out, board = self.told(joined, program=program)
            self.assertEqual((status, [it["kind"] for it in board["findings"]]), (1, ["short"]))
            self.assertIn("GND and VCC are joined on bottom (bot.gbr) at 5.000, 0.000 mm: ", out)

    @unittest.skipUnless(made.built(), "the program is not built")
    def test_names_stay_apart(self):
        """Names that differ in letters that are no ASCII, in control characters, in case or by a blank are different."""
        for one, other in (
            ("Netz_\xe4", "Netz_\xf6"),
            ("N\x01", "N\x02"),
            ("gnd", "GND"),
            ("GND ", "GND"),
            ("N" * 15 + "1", "N" * 15 + "2"),
        ):
            lines = [
                *pin("U1", "1", one),
                *flash(10, (0, 0)),
                *pin("U1", "2", other),
                *flash(10, (5, 0)),
                "%TD*%",
                *draw(11, (0, 0), (5, 0)),
            ]
            self.board(
                {
                    "top.gbr": layer(1, "Top", *lines).encode("latin-1"),
                    "bot.gbr": layer(2, "Bot", *pin("U2", "1", "VCC"), *flash(10, (9, 0))),
                }
            )
            status, out, _ = self.show("board", "--no-drills", program=made.built())
            self.assertEqual((status, out.splitlines()[0]), (1, f"FAIL board: {FIRST}1 short. {SURE}"), (one, other))

    def test_a_character_by_its_number(self):
        """A name that spells a character by its number is the name that has it: two pads of it that stand apart are an open."""
        for one, other, status in (("G\\u004ED", "GND", 1), ("G\\u004D", "GND", 12), ("G\\u04ED", "GND", 12)):
            lines = [*pin("U1", "1", one), *flash(10, (0, 0)), *pin("U1", "2", other), *flash(10, (5, 0))]
            told = self.told({"top.gbr": layer(1, "Top", *lines), "bot.gbr": layer(2, "Bot")}, "--no-drills")
            self.assertEqual(told[0] == 1, status == 1, told)

    @unittest.skipUnless(made.built(), "the program is not built")
    def test_each_contour_is_a_point(self):
        """A pin's region of two contours, of which a track meets one alone."""
        square = [
            f"X{x}Y{y}D0{code}*"
            for at in (0, 9_000_000)
            for x, y, code in ((at, 0, 2), (at + 1_000_000, 0, 1), (at + 1_000_000, 1_000_000, 1), (at, 0, 1))
        ]
        lines = [
            *pin("U1", "1", "GND"),
            "G36*",
            *square,
            "G37*",
            *pin("U1", "2", "GND"),
            *flash(10, (0, 5)),
            "%TD*%",
            *draw(11, (0, 0), (0, 5)),
        ]
        self.board(
            {"top.gbr": layer(1, "Top", *lines), "bot.gbr": layer(2, "Bot", *pin("U2", "1", "VCC"), *flash(10, (9, 9)))}
        )
        status, out, _ = self.show("board", "--no-drills", program=made.built())
        self.assertEqual((status, out.splitlines()[0]), (1, f"FAIL board: {FIRST}1 open. {SURE}"))

    def test_no_holes(self):
        """Pins on several layers and no drill file: refused, unless it is said that there is none."""
        files = {name: text for name, text in FILES.items() if name != "p.drl"}
        status, out, _ = self.told(files)
        self.assertEqual((status, "1 pin of the copper files stand on several layers" in out), (10, True), out)
        self.assertEqual(self.told(files, "--no-drills")[2]["opens"], 1)

    def test_no_names(self):
        bare = {name: text.replace("TO.", "TO.X") for name, text in FILES.items()}
        self.assertEqual([self.told(bare)[k] for k in (0, 1)][0], 10)
        self.assertIn("there is no IPC-D-356A netlist", self.told(bare)[1])
        status, out, _ = self.told({**bare, "n.ipc": netlist(*POINTS)}, "--labels", folder="two")
        self.assertEqual(
            (status, "the copper files do not say of which pins or nets their pads are" in out), (10, True)
        )

    def test_nets_alone(self):
        """Where no file names a pin: each flash and region with a net."""
        names = {name: text.replace("TO.P,", "TO.X,") for name, text in FILES.items()}
        for program in self.over_both():
            status, out, board = self.told(names, program=program)
            self.assertEqual((status, board["points"]), (0, 6), out)

    def test_between_bounds(self):
        """A round pad in arcs, a pad whose middle is erased, and a macro: their points lie in copper that is certain."""
        arcs = ["G36*", "X21000000Y0D02*", "G75*", "G03X21000000Y0I-1000000J0D01*", "G01*", "G37*"]
        erased = [*flash(10, (30, 0)), "%LPC*%", *flash(11, (30, 0)), "%LPD*%"]
        macro = ["%AMA*", "1,1,1.0,0.2,0*%", "%ADD20A*%", *flash(20, (40, 0))]
        lines = [
            *pin("U2", "1", "A"),
            *arcs,
            *pin("U2", "2", "A"),
            *erased,
            "%TD*%",
            *draw(11, (20, 0), (29.7, 0)),
            *pin("U2", "3", "C"),
            *macro,
        ]
        for program in self.over_both():
            status, out, board = self.told({"one.gbr": layer(1, "Top", *lines)}, program=program)
            self.assertEqual(
                (
                    status,
                    out.startswith(
                        f"PASS board: {FIRST}copper and their own names agree at all 3 test points. Certain: the same for the least and the most "
                    ),
                ),
                (0, True),
                out,
            )
            self.assertEqual((board["points"], "its copper" in out), (3, False), out)

    def test_blocks_and_modal_flashes(self):
        """Pads that are blocks with regions and draws, and a flash by its coordinates alone: what stands apart from the track is open."""
        block = ["%ABD30*%", *region((0, 0), (1, 0), (1, 1), (0, 1)), "%AB*%"]
        drawn = ["%ABD30*%", *draw(12, (0, 0), (0.5, 0)), "%AB*%"]
        nested = ["%ABD31*%", *region((0, 0), (1, 0), (1, 1), (0, 1)), "%AB*%", "%ABD30*%", *flash(31, (0, 0)), "%AB*%"]
        modal = ["D10*", "X0Y0D03*", *pin("U1", "2", "GND"), "X5000000Y0*"]
        rows = [(defined, [*pin("U1", "2", "GND"), *flash(30, (5, 0))]) for defined in (block, drawn, nested)] + [
            ([], modal)
        ]
        rows.append(([], [*pin("U1", "2", "GND"), *draw(10, (5, 0), (5.5, 0))]))
        arcs = ["G36*", "X41000000Y0D02*", "G75*", "G03X41000000Y0I-1000000J0D01*", "G01*", "G37*"]
        for number, (defined, pad) in enumerate(rows):
            for end, status in ((2, 1), (5, 0)):
                lines = [
                    *arcs,
                    *defined,
                    *pin("U1", "1", "GND"),
                    *flash(10, (0, 0)),
                    *pad,
                    "%TD*%",
                    *draw(11, (0, 0), (end, 0)),
                ]
                for program in self.over_both():
                    told, out, board = self.told(
                        {"one.gbr": layer(1, "Top", *lines)}, program=program, folder=f"row{number}"
                    )
                    self.assertEqual((told, board["points"], board["opens"]), (status, 2 + (pad == modal), status), out)

    def test_each_labelled_object(self):
        """Each object of a block has its own names, or those of the flash; what is no test point is told with why."""

        def points(*lines, wants_pins=True):
            return [
                (it.label, it.pad and it.pad.middle, it.why)
                for it in pad_names.points_of(gerber(*lines), 1, wants_pins)
            ]

        first, second, bare = (
            pad_names.Label(*it) for it in (("U1", "1", ("GND",)), ("U1", "2", ("VCC",)), ("", "", ("GND",)))
        )
        inner = [
            "%ABD30*%",
            *pin("U1", "2", "VCC"),
            *flash(10, (1, 0)),
            "%TD*%",
            *flash(10, (3, 0)),
            *draw(11, (5, 0), (7, 0)),
            "%AB*%",
        ]
        parts = [(second, (10_000_000, 0), ""), (first, (30_000_000, 0), ""), (first, (60_000_000, 0), "")]
        self.assertEqual(points(*inner, *pin("U1", "1", "GND"), *flash(30, (0, 0))), parts)
        self.assertEqual(points(*inner, "%TD*%", *flash(30, (0, 0))), parts[:1])
        self.assertEqual(points(*pin("U1", "1", "GND"), "%LPC*%", *flash(10, (0, 0))), [(first, None, pad_names.CLEAR)])
        self.assertEqual(
            points("%ADD20C,0*%", *pin("U1", "1", "GND"), *flash(20, (0, 0))), [(first, None, pad_names.NO_COPPER)]
        )
        self.assertEqual(
            points("%IPNEG*%", *pin("U1", "1", "GND"), *flash(10, (0, 0))), [(first, None, pad_names.NEGATIVE)]
        )
        self.assertEqual(points(*pin("U1", "1", "GND"), *draw(10, (0, 0), (2, 0))), [(first, (10_000_000, 0), "")])
        two = ["%AMM*", "1,1,1.0,0,0*", "1,1,1.0,$1,0*%", "%ADD20M,5.0*%", "%ADD21M,0.5*%", *pin("U1", "1", "GND")]
        self.assertEqual(points(*two, *flash(20, (0, 0))), [(first, (0, 0), ""), (first, (50_000_000, 0), "")])
        self.assertEqual(points(*two, *flash(21, (0, 0))), [(first, (2_500_000, 0), "")])
        self.assertEqual(points(*pin("U1", "1", "GND"), "D10*", "G55X2000000Y0D03*"), [(first, (20_000_000, 0), "")])
        self.assertEqual(
            points("%TO.P,U1*%", *label("GND"), *flash(10, (0, 0))),
            [(pad_names.Label("U1", "?", ("GND",)), (0, 0), "")],
        )
        alone = [*label("GND"), *flash(10, (0, 0)), *region((0, 0), (1, 0), (1, 1))]
        self.assertEqual(
            [points(*alone), len(points(*alone, wants_pins=False))], [[(bare, None, pad_names.NET_ALONE)] * 2, 2]
        )
        track = [*label("GND"), *draw(10, (0, 0), (2, 0))]
        self.assertEqual([points(*track, wants_pins=it) for it in (True, False)], [[], [(bare, None, pad_names.DRAWN)]])
        self.assertEqual(
            points(
                *label("GND"),
                *flash(10, (0, 0)),
                "D11*",
                "X4000000*",
                "Y0D02*",
                "X8000000D01*",
                "X9000000*",
                wants_pins=False,
            ),
            [(bare, None, pad_names.DRAWN)] * 2 + [(bare, (x, 0), "") for x in (0, 40_000_000)],
        )

    def test_no_silence(self):
        """Labelled objects that are no test points are noted."""
        lines = [*TOP, "%ADD20C,0*%", *pin("R9", "1", "GND"), *flash(20, (3, 3))]
        _, out, _ = self.told({**FILES, "top.gbr": layer(1, "Top", *lines)})
        self.assertIn("names: 1 labelled object, first R9 pin 1 (top): it makes no copper, and is no test point", out)

    @unittest.skipUnless(made.built(), "the program is not built")
    def test_erased(self):
        """A pad that a clear object erases is missing; one that it erases in part, or before, or that is drawn again, is not."""
        pad, clear = flash(10, (5, 0)), ["%LPC*%", *flash(12, (5, 0)), "%LPD*%"]
        ring = ["%LPC*%", *flash(11, (5, 0)), "%LPD*%"]
        rows = [
            (pad + clear, 1, 1, 1),
            (flash(11, (5, 0)) + clear, 1, 1, 1),
            (pad + ring, 0, 0, 0),
            (clear + pad, 0, 0, 0),
            (pad + clear + pad, 0, 0, 1),
            (pad + clear + ["%TD*%"] + pad, 0, 0, 1),
        ]
        for lines, status, missing, notes in rows:
            lines = [
                *pin("U2", "1", "A"),
                *flash(10, (0, 0)),
                *pin("U2", "2", "A"),
                *lines,
                "%TD*%",
                *draw(11, (0, 0), (4.6, 0)),
            ]
            told, out, board = self.told({"one.gbr": layer(1, "Top", *lines)}, program=made.built())
            self.assertEqual((told, board["missing"]), (status, missing), out)
            self.assertEqual(
                out.count(
                    "names: 1 pad, first U2 pin 2 (the one layer): later clear objects leave no place of its copper"
                ),
                notes,
                out,
            )

    def test_several_nets(self):
        """A pad of several nets is a point of each and declares their tie: what is lost of either is told."""
        tied, agree = ", with 1 declared tie", "copper and their own names agree at all 4 test points"
        both, one = draw(11, (0, 0), (10, 0)), draw(11, (0, 0), (5, 0))
        rows = [
            ("GND,AGND", both, "AGND", 0, f"{agree}{tied}"),
            ("GND,AGND", one, "AGND", 1, f"1 open{tied}"),
            ("GND,AGND", one, "VCC", 0, f"{agree}{tied}"),
            ("GND,AGND", both, "VCC", 1, f"1 short{tied}"),
            ("GND", both, "AGND", 1, "1 short"),
            ("GND,GND,", one, "AGND", 0, "copper and their own names agree at all 3 test points"),
            ("N/C,GND", one, "AGND", 0, "copper and their own names agree at all 3 test points"),
        ]
        for program in self.over_both():
            for names, track, other, status, line in rows:
                lines = [
                    *pin("J1", "1", "GND"),
                    *flash(10, (0, 0)),
                    *pin("NT1", "1", names),
                    *flash(10, (5, 0)),
                    *pin("U1", "1", other),
                    *flash(10, (10, 0)),
                    "%TD*%",
                    *track,
                ]
                told, out, board = self.told({"one.gbr": layer(1, "Top", *lines)}, program=program)
                self.assertEqual(
                    (told, out.splitlines()[0]),
                    (status, f"{'FAIL' if status else 'PASS'} board: {FIRST}{line}. {SURE}"),
                )
                self.assertEqual(
                    [(it["names"], it["source"]) for it in board["ties"]],
                    [(["GND", "AGND"], "one.gbr, NT1 pin 1 (the one layer)")] * (names == "GND,AGND"),
                )
                self.assertEqual(
                    "names: 1 pad, first NT1 pin 1 (the one layer): it is of several nets" in out, names == "GND,AGND"
                )

    def test_several_nets_are_kept(self):
        """With a name that no line of ties.txt can say the kept package has the short."""
        for names, text, status in (
            ("GND,AGND", "GND=AGND\n", 0),
            ("#WE,GND", "GND=#WE\n", 0),
            ("A=B,GND", "# not in a line: A=B=GND\n", 1),
        ):
            lines = [*pin("NT1", "1", names), *flash(10, (0, 0)), *pin("U1", "1", "VCC"), *flash(10, (5, 0))]
            self.assertEqual(self.told({"one.gbr": layer(1, "Top", *lines)}, "--keep", names)[0], 0)
            self.assertEqual((self.read(f"{names}/ties.txt"), self.show(names)[0]), (text, status))

    def test_macros(self):
        """A pad that is a macro beside its origin: flattened, with its point in its copper, and no bounds."""
        macro = ["%AMA*", "1,1,1.0,0.8,0*%", "%ADD20A*%"]
        lines = [
            *macro,
            *pin("U2", "1", "A"),
            *flash(20, (0, 0)),
            *pin("U2", "2", "A"),
            *flash(20, (10, 0)),
            "%TD*%",
            *draw(11, (0.8, 0), (10.8, 0)),
        ]
        for program in self.over_both():
            status, out, board = self.told(
                {"one.gbr": layer(1, "Top", *lines)}, "--keep", f"kept{program == made.STAND_IN}", program=program
            )
            self.assertEqual(
                (
                    status,
                    out.startswith(f"PASS board: {FIRST}copper and their own names agree at all ") and SURE in out,
                ),
                (0, True),
                out,
            )
        self.assertEqual(
            [it.x for it in read.records(self.read("keptTrue/names.ipc").encode())], [8_000_000, 108_000_000]
        )

    def test_a_broken_word(self):
        """Words that are broken over lines say the same of pads."""
        broken = {**FILES, "top.gbr": FILES["top.gbr"].replace("%TO.P,R1,2,IN*%", "%TO.P,R1,\n2,IN*%")}
        self.assertEqual(
            [it.label for it in pad_names.points_of(broken["top.gbr"], 1, True)],
            [it.label for it in pad_names.points_of(FILES["top.gbr"], 1, True)],
        )

    def test_beside_a_netlist(self):
        """What the netlist says otherwise is told; the names are the copper's own."""
        rows = [
            (POINTS, ["the netlist n.ipc says the same of all 5 pins"]),
            (POINTS[:4], ["the netlist n.ipc says otherwise: it has no record of U1 pin 2"]),
            (
                [*POINTS[:3], record("NET-(R1-PAD2)O", "U1.1", 5, 0, "02"), POINTS[4]],
                [
                    f"the netlist n.ipc says otherwise: U1 pin 1 is of NET-(R1-PAD2)O there and of GND by the copper's names"
                ],
            ),
            ([*POINTS, record("VCC", "X1.1", 0, 0)], ["the netlist n.ipc says otherwise: it alone has X1 pin 1"]),
        ]
        for program in self.over_both():
            for number, (records, wanted) in enumerate(rows):
                status, out, board = self.told(
                    {**FILES, "n.ipc": netlist(*records)}, "--labels", program=program, folder=f"row{number}"
                )
                self.assertEqual(
                    (status, out.startswith(f"PASS row{number}: {FIRST}copper and their own names agree at ")),
                    (0, True),
                    out,
                )
                self.assertEqual([note for note in board["notes"] if note.startswith("the netlist")], wanted)

    def test_in_a_manifest(self):
        files = {**FILES, "n.ipc": netlist(*POINTS[:4]), "m.json": manifest(["top.gbr", "bot.gbr"], [("p.drl", 1, 2)])}
        self.assertEqual(
            self.told(files)[1], f"PASS board: copper and the netlist agree at all 5 test points. {SURE}\n"
        )
        self.assertIn("it has no record of U1 pin 2", self.told(files, "--labels")[1])
        os.remove(self.path("board/n.ipc"))
        status, out, _ = self.show("board", "--labels")
        self.assertEqual((status, "the netlist n.ipc cannot be read" in out), (0, True))
        os.remove(self.path("board/bot.gbr"))
        self.assertEqual(
            self.show("board", "--labels")[:2],
            (4, "NOT JUDGED board: bot.gbr is not there, or the system does not let it be read.\n"),
        )


class Pairs(unittest.TestCase):
    def told(self, theirs, ours):
        theirs, ours = ({(pin[0], pin[1:]): {name} for pin, name in its.items()} for its in (theirs, ours))
        pair = pin_names.pairs(theirs, ours)
        return [*pin_names.by_pin(theirs, ours, pair), *pin_names.by_name(pair)]

    def test_pairs(self):
        ours = {"A1": "GND", "A2": "GND", "B1": "/in", "B2": "/in", "C1": "unconnected-(C1)"}
        rows = [
            ({"A1": "GND", "A2": "GND", "B1": "_IN", "B2": "_IN", "C1": "N/C"}, []),
            (
                {"A1": "GND", "A2": "GND", "B1": "_IN", "B2": "_IN", "C1": "GND"},
                ["C pin 1 is of GND there and of unconnected-(C1) by the copper's names"],
            ),
            (
                {"A1": "GND", "A2": "GND", "B1": "VCC", "B2": "VCC", "C1": "N/C"},
                ["what is VCC there is /in by the copper's names"],
            ),
            (
                {"A1": "GND", "A2": "GND", "B1": "_IN", "B2": "N/C", "C1": "N/C"},
                ["B pin 2 is of N/C there and of /in by the copper's names"],
            ),
        ]
        for theirs, wanted in rows:
            self.assertEqual(self.told(theirs, ours), wanted)


class Places(unittest.TestCase):
    DISC = Capsule((0, 0), (0, 0), 5_000_000)

    def test_units(self):
        """The unit in which most pads have their middle: whole thousandths of an inch, whole micrometres."""
        for middle, unit, at in (((254_000, 0), 25_400, (10, 0)), ((250_000, 30_000), 10_000, (25, 3))):
            pad = pad_places.Pad(middle, [Capsule(middle, middle, 5_000_000)])
            self.assertEqual(pad_places.settled([pad]), (unit, [pad_places.Place(*at, 0)]))

    def test_in_copper(self):
        """Each place is copper of its pad, by whole numbers: off the grid, with a hole, small, beside its middle, slanted."""
        square = Area([(-19_000, -19_000), (19_000, -19_000), (19_000, 19_000), (-19_000, 19_000)])
        far = Area([(5_003, 0), (999_003, 994_000), (999_003, 1_006_000), (5_003, 12_000)])
        rows = [
            [self.DISC],
            [Capsule((12_345, 6_789), (12_345, 6_789), 8_000)],
            [square],
            [far],
            [Capsule((3, 3), (700_003, 100_003), 6_000)],
        ]
        for pieces in rows:
            for gone in (
                [],
                [Capsule((0, 0), (0, 0), 3_000)],
                [Capsule((0, 0), (0, 0), 3_000_000)] if pieces == [self.DISC] else [],
            ):
                pad = pad_places.Pad((0, 0), pieces, gone)
                place = pad_places.grid_place(pad, 10_000)
                self.assertIsNotNone(place, pieces)
                spot = (place.x * 10_000, place.y * 10_000)
                self.assertTrue(
                    any(pad_places.holds(piece, spot) for piece in pieces)
                    and not any(pad_places.holds(piece, spot) for piece in gone),
                    (pieces, place),
                )

    def test_nowhere(self):
        """A pad smaller than the grid and off it, and one farther than six digits."""
        small = pad_places.Pad((5_000, 5_000), [Capsule((5_000, 5_000), (5_000, 5_000), 100)])
        far = pad_places.Pad((10_010_000_000, 0), [Capsule((10_010_000_000, 0), (10_010_000_000, 0), 1_000_000)])
        self.assertEqual(
            (pad_places.grid_place(small, 10_000), pad_places.grid_place(far, 10_000), pad_places.settled([far])[0]),
            (None, None, 25_400),
        )
