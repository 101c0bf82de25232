"""The record of a judged board and its verification, over the stand-in and over the built program."""
import hashlib
import json
import zipfile

from boardnet_show.extras.record import version_text
from tests.fixtures import made
from tests.fixtures.pages import BOARD

ARC = made.gerber(
    "G75*", *made.flash(10, (0, 0)), "D11*", "X1600000Y0D02*", "G03*", "X0Y1600000I-1600000J0D01*", "G01*"
)
BOUNDED = {
    "m.json": made.manifest(),
    "top.gbr": ARC,
    "n.ipc": made.netlist(made.record("A", "J1.1", 0, 0), made.record("B", "J1.2", 1.6, 0)),
}
MACRO = {**BOUNDED, "top.gbr": made.gerber("%AMD*", "1,1,1.0,0,0*%", "%ADD20D*%", *made.flash(20, (0, 0), (1.6, 0)))}
SAME = "the record is of these files, and its report passes the audit"


def sum_of(text):
    return hashlib.sha256(text.encode()).hexdigest()


class Records(made.Case):
    @classmethod
    def setUpClass(cls):
        # Asked once, for all children.
        version_text()

    def recorded(self, files, **more):
        """The record of a board."""
        self.board(files)
        self.show("board", "--record", "r.json", **more)
        return json.loads(self.read("r.json"))

    def verified(self, **more):
        status, out, _ = self.show("board", "--verify", "r.json", **more)
        return status, out.splitlines()

    def test_what_is_recorded(self):
        for program in self.over_both():
            told = self.recorded(BOARD, program=program)
            report = self.run_words([program, "check", "m.json"], self.path("board"))[1]
            self.assertEqual(
                (told["boardnet_record"], told["status"], told["line"]), (1, 1, "differs, opens 1, shorts 1, missing 1")
            )
            self.assertEqual(
                told["reports"],
                [
                    {
                        "of": "board",
                        "line": told["line"],
                        "audit": "audit true",
                        "sha256": sum_of(report),
                        "text": report,
                    }
                ],
            )
            roles = {
                "m.json": "manifest",
                "top.gbr": "copper",
                "bot.gbr": "copper",
                "p.drl": "drills",
                "n.ipc": "netlist",
            }
            self.assertEqual(
                told["files"],
                [
                    {"name": name, "role": role, "came": sum_of(BOARD[name]), "judged": sum_of(BOARD[name])}
                    for name, role in roles.items()
                ],
            )
            self.assertEqual((told["mends"], told["ties"]), ([], []))
            self.assertRegex(told["date"], r"^\d{4}-\d\d-\d\dT\d\d:\d\d:\d\dZ$")
            with open(program, "rb") as file:
                self.assertEqual(told["program"]["program"], hashlib.sha256(file.read()).hexdigest())
            self.assertRegex(told["program"]["sources"], "^[0-9a-f]{64}")
            self.assertEqual(self.verified(program=program)[0], 1)  # the board itself differs
            self.assertIn(SAME, self.verified(program=program)[1][0])

    def test_flattened_and_bounds(self):
        """A flattened file came as another than it was judged; between bounds both reports stand whole."""
        for program in self.over_both():
            told = self.recorded(MACRO, program=program)
            copper = told["files"][1]
            self.assertEqual((copper["came"], copper["came"] == copper["judged"]), (sum_of(MACRO["top.gbr"]), False))
            self.assertEqual(self.verified(program=program)[0], 0)
            told = self.recorded(BOUNDED, program=program)
            self.assertEqual([it["of"] for it in told["reports"]], ["lower", "upper"])
            self.assertEqual(
                [set(it) - {"name", "role", "came", "judged"} for it in told["files"]], [{"lower", "upper"}] * 3
            )
            self.assertEqual(self.verified(program=program)[0], 0)

    def test_what_differs(self):
        """Each change of the files or of the record is told, and the status says so."""
        self.board(MACRO)
        agreed = self.recorded(MACRO)
        self.assertEqual(self.verified()[0], 0)
        spoilt = json.loads(self.read("r.json"))
        spoilt["reports"][0]["text"] = spoilt["reports"][0]["text"].replace("net 1 1", "net 1 0")
        rows = [
            ({"line": "agrees, I say"}, "unlike the record: the answer was agrees, I say, and is agrees"),
            ({"status": 1}, "the status was 1, and is 0"),
            ({"reports": []}, "the record has no report"),
            (
                {"reports": spoilt["reports"]},
                "its report of the board does not pass the audit on these files: audit untrue 4",
            ),
            ({"reports": "\ud800"}, "the record has no report"),
            ({"reports": [{"of": "board", "text": "\ud800"}]}, "does not pass the audit"),
            ({"files": agreed["files"][1:]}, "m.json is here and not in the record"),
            ({"files": agreed["files"] + [{"name": "x", "came": "0"}]}, "x is in the record and not here"),
            ({"mends": ["a"]}, "the mends was a, and is none"),
            ({"files": agreed["files"] * 2}, "the record has 2 entries of m.json under files"),
            ({"reports": spoilt["reports"] + agreed["reports"]}, "the record has 2 entries of board under reports"),
            (
                {"reports": [{**agreed["reports"][0], "sha256": "0"}]},
                "its report of the board has not the SHA-256 that the record says",
            ),
            (
                {"reports": [{**agreed["reports"][0], "audit": "audit untrue 1"}]},
                "the answer on the board was agrees (audit untrue 1), and is agrees (audit true)",
            ),
        ]
        for changes, words in rows:
            with self.subTest(words=words):
                self.write("r.json", json.dumps({**agreed, **changes}))
                status, lines = self.verified()
                self.assertEqual(status, 1)
                self.assertTrue(any(words in line for line in lines), lines)
        self.write("r.json", json.dumps({**agreed, "program": {"version": "0"}, "date": "then"}))
        status, lines = self.verified()
        self.assertEqual((status, lines[1][:50]), (0, "the record of then is by another program: now vers"))

    def test_another_file(self):
        self.recorded(MACRO)
        self.board({"top.gbr": made.gerber(*made.flash(10, (0, 0)), *made.flash(10, (1.6, 0)))})
        status, lines = self.verified()
        self.assertEqual(status, 1)
        self.assertIn(
            f"unlike the record: top.gbr is another file: SHA-256 {sum_of(MACRO['top.gbr'])} in the record, {sum_of(self.read('board/top.gbr'))} here",
            lines,
        )

    def test_refused(self):
        """A record of a board that was refused has no report, and is verified as it is."""
        told = self.recorded({**MACRO, "top.gbr": "M02*\n%LPC*%\n"})
        self.assertEqual((told["status"], told["reports"]), (3, []))
        status, lines = self.verified()
        self.assertEqual((status, [line for line in lines if "unlike" in line]), (3, []), lines)
        self.assertIn("the record is of these files, and neither it nor today has a report", lines[0])
        self.board({"top.gbr": "M02*\n%LPD*%\n"})
        self.assertTrue(any("top.gbr is another file" in line for line in self.verified()[1]))

    def test_no_record(self):
        self.board(MACRO)
        for text, words in (
            ("[", "no JSON"),
            ("[" * 100_000, "no JSON"),
            ('{"boardnet_record": 2, "boardnet_record": 1}', "no JSON"),
            ("{}", "no record of the form 1"),
            ('{"boardnet_record": 2}', "no record of the form 1"),
            (None, "No such file"),
        ):
            if text is not None:
                self.write("r.json", text)
            # The board's own line says why, which is all that a batch and an editor get.
            for form in ([], ["-q"]):
                status, out, _ = self.show("board", "--verify", "r.json" if text is not None else "none.json", *form)
                self.assertEqual(status, 12)
                self.assertRegex(out, rf"(?m)^(INCOMPLETE board: |board: .*; )not verified: .*{words}")

    def test_archive_and_pages(self):
        """Of an archive the sums are those of its members; the page has the record, also where no picture is drawn."""
        with zipfile.ZipFile(self.path("b.zip"), "w") as archive:
            for name, text in BOARD.items():
                archive.writestr(name, text)
        self.show("b.zip", "--record", "r.json", "--page", "p.html")
        self.assertEqual(json.loads(self.read("r.json"))["files"][1]["came"], sum_of(BOARD["top.gbr"]))
        self.assertIn(f"<td>top.gbr</td><td>copper</td><td>{sum_of(BOARD['top.gbr'])}</td>", self.read("p.html"))
        self.board(BOUNDED)
        self.show("board", "--record", "r.json", "--page", "q.html")
        self.assertIn("<th>the least copper that it can mean</th>", self.read("q.html"))
