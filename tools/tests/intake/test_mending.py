"""`show` on boards whose files are mended: how the answer says it, what is kept, and what stays refused."""
import json

from tests.fixtures import made
from tests.fixtures.common import SURE
from tests.fixtures.made import draw, flash, gerber, label, manifest, netlist, record

TOP = gerber(*label("SIG"), *flash(10, (0, 0), (10, 0)))
POINTS = netlist(record("SIG", "J1.1", 0, 0, "00"), record("SIG", "J1.2", 10, 0, "00"))
TRACK = gerber(*flash(10, (0, 0), (10, 0)), *draw(11, (0, 0), (10, 0)))
DRILL = """M48
; DRILL file {KiCad 9.0.2}
; #@! TF.FileFunction,MixedPlating,1,2
METRIC
; #@! TA.AperFunction,Plated,PTH,ComponentDrill
T1C0.400
; #@! TA.AperFunction,NonPlated,NPTH,ComponentDrill
T2C1.500
%
T1
X0.0Y0.0
X10.0Y0.0
T2
X5.0Y5.0
M30
"""
TOLD = "p.drl: line 3, `; #@! TF.FileFunction,MixedPlating,1,2`, and each tool says whether it is plated: the holes of the unplated ones (T2) are left out, 1 line"
BOARD = {
    "m.json": manifest(("top.gbr", "bot.gbr"), [("p.drl", 1, 2)]),
    "top.gbr": TOP,
    "bot.gbr": TRACK,
    "p.drl": DRILL,
    "n.ipc": POINTS,
}

COPY = "Judged on a copy of p.drl, rewritten to say the same in simpler words."
ANSWER = f"PASS board: copper and the netlist agree at all 4 test points. {SURE} {COPY}"


def answer(program):
    """The answer; the program reads the drill file as it came, and the stand-in cannot be asked."""
    return ANSWER if program == made.STAND_IN else f"{ANSWER[:-1]}; it is proved of the files as they came."


def line(program):
    return "agrees, after 1 mend" + ("" if program == made.STAND_IN else ", proved of the files as they came")


class Answers(made.Case):
    def test_agrees(self):
        for program in self.over_both():
            self.board(BOARD)
            status, out, _ = self.show("board", "--all", program=program)
            self.assertEqual((status, out), (0, f"{answer(program)}\nmended: {TOLD}\n"))
            told = json.loads(self.show("board", "--json", "-", program=program)[1])["boards"][0]
            self.assertEqual((told["line"], told["audit"]), (line(program), "audit true"))
            self.assertEqual(told["mends"], [{"file": "p.drl", "line": 3, "kind": "plating", "words": TOLD}])
        self.assertEqual(self.read("board/p.drl"), DRILL)

    def test_page_and_record(self):
        """The page begins with the words of the terminal, and says that copies were judged; so does the verification of a record."""
        self.board(BOARD)
        for program in self.over_both():
            _, out, _ = self.show("board", "--page", "p.html", "--record", "r.json", program=program)
            page = self.read("p.html")
            self.assertIn(f'<p class="verdict">{answer(program).replace(" board", "")}</p>', page)
            self.assertIn(
                "The report was audited: it is true of these files, with copies in place of p.drl (mended). ", page
            )
            self.assertIn(f"<td>{line(program)} (status 0)</td>", page)
            self.assertIn(
                "the record is of these files, and its report passes the audit on the copies that were judged",
                self.show("board", "--verify", "r.json", program=program)[1],
            )
        self.board({**BOARD, "p.drl": DRILL.replace("MixedPlating", "Plated").replace("T2\nX5.0Y5.0\n", "")})
        self.show("board", "--page", "p.html")
        self.assertTrue(
            '<p class="verdict">PASS: copper and the netlist agree at all 4 test points. ' in self.read("p.html")
            and "it is true of these files. " in self.read("p.html")
        )

    def test_differs(self):
        """A hole of an unplated tool joins nothing, and lines are those of the file as it is."""
        middle = gerber(*flash(10, (0, 0), (10, 0), (5, 0)))
        self.board(
            {
                **BOARD,
                "top.gbr": middle,
                "bot.gbr": gerber(*flash(10, (0, 0), (10, 0), (5, 0))),
                "n.ipc": netlist(record("SIG", "J1.1", 5, 0, "00")),
            }
        )
        status, out, _ = self.show("board")
        self.assertEqual((status, out.splitlines()[0]), (1, f"FAIL board: 1 open. {SURE} {COPY}"))

    def test_nothing_to_mend(self):
        files = {**BOARD, "p.drl": DRILL.replace("MixedPlating", "Plated").replace("T2\nX5.0Y5.0\n", "")}
        self.board(files)
        status, out, _ = self.show("board", "--json", "-")
        told = json.loads(out)["boards"][0]
        self.assertEqual((status, told["line"], told["mends"]), (0, "agrees", []))

    def test_kept(self):
        """What is kept is what was judged: `check` and `audit` say the same of it."""
        for number, program in enumerate(self.over_both()):
            self.board(BOARD)
            self.assertEqual(self.show("board", "--keep", f"kept{number}", program=program)[0], 0)
            self.assertEqual(
                self.read(f"kept{number}/p.drl"), DRILL.replace("MixedPlating", "Plated").replace("X5.0Y5.0", "")
            )
            self.assertEqual(
                self.run_words([program, "audit", "m.json", "report.txt"], self.path(f"kept{number}"))[:2],
                (0, "audit true\n"),
            )

    def test_between_bounds(self):
        """Copper outside the profile beside a mend: the answer says both."""
        arc = TRACK.replace("D11*", "G75*\nD11*").replace("X10000000Y0D01", "G03X10000000Y0I5000000J0D01")
        self.board({**BOARD, "bot.gbr": arc})
        self.assertIn(COPY, self.show("board")[1].splitlines()[0])
        status, out, _ = self.show("board", "-q")
        self.assertEqual((status, out.splitlines()[0]), (0, "board: agrees, between two bounds, after 1 mend"))

    def test_refused(self):
        """What stays refused says the line, and what to export from the tool that wrote the file."""
        if not made.built():
            self.skipTest("the program is not built")
        rows = [
            (
                {"p.drl": DRILL.replace("; #@! TA.AperFunction,NonPlated,NPTH,ComponentDrill\n", "")},
                "drill 13 MixedPlating at line 3, byte 31; to export: KiCad: Generate Drill Files, 'PTH and NPTH in single file' off (kicad-cli: --excellon-separate-th)",
            ),
            (
                {"p.drl": DRILL.replace("MixedPlating", "Plated")},
                "line 14 makes a hole that the file itself calls unplated, and what it says of the others does not fit or is missing",
            ),
            (
                {"p.drl": DRILL.replace("X0.0", "X0")},
                "drill 6 ImpliedDecimals at line 11, byte 194, after 1 mend; to export: KiCad: Generate Drill Files, zeros format 'Decimal format' "
                "(kicad-cli: --excellon-zeros-format decimal)",
            ),
            (
                {"bot.gbr": TRACK.replace("D11*", "G91*\nD11*")},
                "Gerber 9 Incremental at command 9, byte 98, after 1 mend; line 9 of bot.gbr; to export: absolute coordinates",
            ),
        ]
        for files, words in rows:
            self.board({**BOARD, **files})
            status, out, _ = self.show("board", "-q", program=made.built())
            self.assertEqual(status, 3)
            self.assertIn(words, out.splitlines()[0])

    def test_one_whole_name(self):
        """Two aliases of one name: pads that stand apart are open, joined ones agree; what is unclear is refused."""
        aliases = "P  NNAME1  the whole name\nP  NNAME2  the whole name\n"
        apart, joined = gerber(*flash(10, (0, 0), (5, 0))), gerber(
            *flash(10, (0, 0), (5, 0)), *draw(11, (0, 0), (5, 0))
        )
        points = aliases + netlist(record("NNAME1", "U1.1", 0, 0), record("NNAME2", "U1.2", 5, 0))
        told = "mended: n.ipc: line 5, `NNAME2`, stands for the same name as NNAME1: written as that"
        for program in self.over_both():
            for number, (text, status, line) in enumerate(
                ((apart, 1, "differs, opens 1, shorts 0, missing 0"), (joined, 0, "agrees"))
            ):
                self.board({"m.json": manifest(), "top.gbr": text, "n.ipc": points}, f"row{number}")
                done, out, _ = self.show(f"row{number}", "-q", program=program)
                self.assertEqual((done, out.splitlines()[0]), (status, f"row{number}: {line}, after 1 mend"))
                self.assertIn(told, self.show(f"row{number}", "--all", program=program)[1].splitlines())
            self.assertIn("the whole name is in 2 parts", self.show("row0", program=program)[1])
        self.write("row0/n.ipc", points.replace("NNAME2  the", "NNAME1  the other"))
        self.assertEqual(
            self.show("row0")[:2],
            (
                3,
                "NOT JUDGED row0: n.ipc: NNAME1 stands for two names: have each name stand for one net, and each net have one name.\n",
            ),
        )

    def test_a_netlist_elsewhere(self):
        """A netlist that a manifest names by its whole path has no copy under that name."""
        points = "P  NNAME1  A\nP  NNAME2  A\n" + netlist(
            record("NNAME1", "U1.1", 0, 0), record("NNAME2", "U1.2", 5, 0)
        )
        path = self.write("else/n.ipc", points)
        self.board({"m.json": manifest().replace("n.ipc", path), "top.gbr": gerber(*flash(10, (0, 0), (5, 0)))})
        self.assertNotEqual(self.show("board")[0], 0)
