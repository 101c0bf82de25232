"""Declared net ties: shorts that are meant, ties that the copper does not have, and which tie a finding asks for."""
import json
import types
import unittest
from xml.dom import minidom

from boardnet_show.judging import net_ties
from tests.fixtures import made
from tests.fixtures.common import SURE
from tests.fixtures.made import draw, flash, label, manifest, netlist, record

# GND and AGND are joined by the two pads of NT1; VCC stands alone.
PADS = flash(10, (0, 0), (10, 0), (4, 0), (6, 0), (0, 5))
COPPER = [*PADS, *draw(11, (0, 0), (4, 0), (6, 0), (10, 0))]
POINTS = [
    record("GND", "J1.1", 0, 0),
    record("AGND", "U1.3", 10, 0),
    record("GND", "NT1.1", 4, 0),
    record("AGND", "NT1.2", 6, 0),
    record("VCC", "J1.2", 0, 5),
]
# A track that joins VCC with them, too.
SHORT = [*COPPER, *draw(11, (0, 5), (0, 2.5), (2, 0))]


class Ties(made.Case):
    def tied(self, copper=COPPER, points=POINTS, words=(), text=None, program=made.STAND_IN):
        self.board(
            {
                "m.json": manifest(),
                "top.gbr": copper,
                "n.ipc": netlist(*points),
                **({"ties.txt": text} if text is not None else {}),
            },
            "board",
        )
        status, out, notes = self.show(
            "board", *words, "--json", "b.json", "--junit", "b.xml", "--rdb", "b.lyrdb", program=program
        )
        self.assertEqual(notes, "")
        return status, out, json.loads(self.read("b.json"))["boards"][0]

    def failures(self):
        suite = minidom.parseString(self.read("b.xml")).getElementsByTagName("testsuite")[0]
        return [it.parentNode.getAttribute("name") for it in suite.getElementsByTagName("failure")]

    def test_none_declared(self):
        """The finding says which tie would declare it, where both names have a pin of one part there."""
        for program in self.over_both():
            status, out, board = self.tied(program=program)
            self.assertEqual((status, board["shorts"], board["ties"]), (1, 1, []))
            self.assertIn(
                "Suggestion: both have pins of NT1 there; where it is to join them, --tie AGND=GND declares it.\n", out
            )
        minus = [it.replace("AGND", "-12V") for it in POINTS]
        self.assertIn(" --tie=-12V=GND declares it.\n", self.tied(points=minus)[1])
        self.assertEqual(self.tied(points=minus, words=["--tie=-12V=GND"])[0], 0)
        other = [*POINTS[:2], record("GND", "R1.1", 4, 0), record("AGND", "R2.2", 6, 0), POINTS[4]]
        self.assertNotIn("--tie", self.tied(points=other)[1])

    def test_declared(self):
        """By the command and by the file: nothing is found, and what was confirmed is said."""
        line = f"PASS board: copper and the netlist agree at all 5 test points, with 1 declared tie. {SURE}\n"
        for program in self.over_both():
            for words, text, source in (
                (["--tie", "GND=AGND"], None, "--tie"),
                ([], "# jumpers\n\n AGND = GND \n", "ties.txt, line 3"),
                ([], "\ufeffGND=AGND # NT1\n", "ties.txt, line 1"),
                (["--tie", "AGND=GND"], "GND=AGND\n", "--tie"),
            ):
                status, out, board = self.tied(words=words, text=text, program=program)
                self.assertEqual((status, out, board["findings"], board["shorts"]), (0, line, [], 0))
                self.assertEqual(
                    [(sorted(it["names"]), it["source"], it["net"]) for it in board["ties"]],
                    [(["AGND", "GND"], source, 0)],
                )
                self.assertEqual(self.failures(), [])

    def test_others_on_the_net(self):
        """What joins tied names and others is about the others, and its place is the other touch."""
        for program in self.over_both():
            status, out, board = self.tied(SHORT, words=["--tie", "GND=AGND"], program=program)
            self.assertEqual((status, board["shorts"], len(board["findings"])), (1, 1, 1))
            found = board["findings"][0]
            self.assertTrue(
                found["words"].startswith(
                    "GND=AGND and VCC are joined, it seems on the one layer (top.gbr) at 2.000, 0.000 mm: "
                ),
                found["words"],
            )
            self.assertEqual([it["names"] for it in found["meets"]], [["AGND=GND", "VCC"]])
            self.assertNotIn("--tie", " ".join(found["hints"]))
            self.assertIn("FAIL board: 1 short, with 1 declared tie. ", out)
            # The place lies on the track from VCC, not between the pads of NT1.
            self.assertLess(found["meets"][0]["x"], 3)

    def test_labels(self):
        """Labels that spell the names otherwise than the netlist: the same place, and the netlist's names in the tie."""
        labels = [
            *label("Gnd"),
            *flash(10, (0, 0), (4, 0)),
            *draw(11, (0, 0), (4, 0)),
            *label("AGnd"),
            *flash(10, (10, 0), (6, 0)),
            *draw(11, (6, 0), (10, 0)),
            "%TD*%",
            *draw(11, (4, 0), (6, 0)),
            *label("Vcc"),
            *flash(10, (0, 5)),
        ]
        short = [*labels, *draw(11, (0, 5), (0, 2.5), (2, 0))]
        for program in self.over_both():
            self.assertIn(
                "where it is to join them, --tie AGND=GND declares it.\n", self.tied(labels, program=program)[1]
            )
            found = self.tied(short, words=["--tie", "GND=AGND"], program=program)[2]["findings"]
            self.assertEqual(
                [(it["labelled"], [meet["names"] for meet in it["meets"]]) for it in found],
                [(True, [["AGND=GND", "Vcc"]])],
            )

    def test_chains(self):
        """Three names by two ties are one; by one tie the third is another."""
        self.assertEqual(self.tied(SHORT, words=["--tie", "GND=AGND", "--tie", "VCC=AGND"])[0], 0)
        self.assertEqual(
            self.tied(SHORT, words=["--tie", "VCC=AGND"])[2]["findings"][0]["words"].split(" are")[0],
            "GND and AGND=VCC",
        )

    def test_a_tie_that_is_not_there(self):
        for program in self.over_both():
            status, out, board = self.tied(words=["--tie", "GND=AGND", "--tie", "GND=VCC"], program=program)
            self.assertEqual(
                (status, board["opens"], board["open_ties"], [it["net"] for it in board["ties"]]), (1, 0, 1, [0, None])
            )
            found = board["findings"][0]
            self.assertEqual(
                (found["id"], found["kind"], found["gap"]["distance"], sorted(found["names"])),
                ("open-0", "open", 4, ["GND", "VCC"]),
            )
            self.assertTrue(
                found["words"].startswith("GND and VCC are declared to be tied (--tie) and no copper joins them: "),
                found["words"],
            )
            self.assertIn("FAIL board: 1 declared tie that no copper makes, with 1 declared tie. ", out)
            self.assertEqual(sorted(self.failures()), ["GND", "VCC"])
        for name in ("--page", "--svg"):
            self.assertEqual(self.show("board", "--tie", "GND=VCC", name, "out")[0], 1)
        self.assertIn("open-0: GND and VCC are declared", self.show("board", "-q", "--tie", "GND=VCC")[1])

    def test_a_name_that_is_not_there(self):
        for words in (["--tie", "GND=AGMD"], ["--tie", "A=B"]):
            status, out, board = self.tied(words=["--tie", "GND=AGND", *words])
            self.assertEqual((status, board["opens"], board["open_ties"], self.failures()), (1, 0, 1, ["ties"]))
            self.assertIn(f"the tie {words[1]} (--tie) is open: no test point has the name ", out)
            found = [(it["id"], it["kind"], it["names"], it["points"]) for it in board["findings"]]
            self.assertEqual(
                (found, board["findings"][0]["words"] in board["notes"]),
                ([("tie-0", "tie", words[1].split("="), [])], True),
            )
            self.assertIn("is open", self.show("board", "-q", "--tie", "GND=AGND", *words)[1])
            self.assertIn("is open", minidom.parse(self.path("b.lyrdb")).getElementsByTagName("item")[0].toxml())

    def test_no_tie(self):
        for words, text, what in (
            (["--tie", "GND"], None, "--tie: `GND`"),
            (["--tie", "GND=GND"], None, "--tie: "),
            (["--tie", "N/C=GND"], None, "--tie: "),
            ([], "GND=AGND\nGND AGND\n", "ties.txt, line 2: `GND AGND`"),
        ):
            status, out, _ = self.tied(words=words, text=text)
            self.assertEqual((status, what in out, "is no tie: two net names as GND=AGND" in out), (2, True, True), out)

    def test_pins_without_net(self):
        """A pin without net on tied copper is another's."""
        board = self.tied(points=[*POINTS, record("N/C", "U1.4", 5, 0)], words=["--tie", "GND=AGND"])[2]
        self.assertTrue(
            board["findings"][0]["words"].startswith("GND=AGND and a pin without net (N/C) are joined, it seems on ")
        )

    def test_batch(self):
        self.tied()
        self.board(
            {"m.json": manifest(), "top.gbr": COPPER, "n.ipc": netlist(*POINTS), "ties.txt": "GND=AGND\n"}, "other"
        )
        self.assertEqual(
            self.show("board", "other", "--tie", "AGND=GND")[:2],
            (
                0,
                "".join(
                    f"PASS {name}: copper and the netlist agree at all 5 test points, with 1 declared tie. {SURE}\n"
                    for name in ("board", "other")
                )
                + "2 boards: 2 pass\n",
            ),
        )

    def test_page(self):
        """A page and a marker database of a board whose shorts are all ties."""
        self.tied()
        self.assertEqual(self.show("board", "--tie", "GND=AGND", "--page", "p.html", "--rdb", "p.lyrdb")[0], 0)
        self.assertIn(
            f"PASS: copper and the netlist agree at all 5 test points, with 1 declared tie. {SURE}", self.read("p.html")
        )
        self.assertEqual(len(minidom.parseString(self.read("p.lyrdb")).getElementsByTagName("item")), 0)

    def test_kept(self):
        self.tied(text="# a comment\nGND=AGND\n")
        self.show("board", "--keep", "kept")
        self.assertEqual((self.read("kept/ties.txt"), self.show("kept")[0]), ("GND=AGND\n", 0))

    def test_bounds(self):
        """Copper outside the profile: ties hold between bounds, too."""
        arc = [*COPPER, "X20000000Y20000000D02*", "G75*", "G03X21000000Y21000000I0J1000000D01*", "G01*"]
        for program in self.over_both():
            for words, status, line in (
                (
                    ["GND=AGND"],
                    0,
                    "PASS board: copper and the netlist agree at all 5 test points, with 1 declared tie. Certain: the same for the least and the most ",
                ),
                (
                    ["GND=VCC"],
                    1,
                    "FAIL board: 2 faults are certain, with 0 declared ties. Certain: the same for the least and the most ",
                ),
                (
                    ["GND=AGND", "GND=VCC"],
                    1,
                    "FAIL board: 1 fault is certain, with 1 declared tie. Certain: the same for ",
                ),
            ):
                told = self.tied(arc, words=[each for name in words for each in ("--tie", name)], program=program)
                self.assertEqual((told[0], told[1].startswith(line)), (status, True), told[1])
            told = self.tied(arc, words=["--tie", "GND=AGND", "--tie", "GND=AGMD"], program=program)
            self.assertEqual(
                (told[0], "the tie GND=AGMD (--tie) is open: no test point has the name AGMD" in told[1]),
                (1, True),
                told[1],
            )
            board = json.loads(
                self.show("board", "--tie", "GND=AGND", "--tie", "GND=AGMD", "--json", "-", program=program)[1]
            )["boards"][0]
            self.assertEqual(
                [board[word] for word in ("opens", "shorts", "missing", "open_ties", "certain", "undecided")],
                [0, 0, 0, 1, 1, 0],
            )
            self.assertEqual([(it["id"], it["sure"]) for it in board["findings"]], [("tie-0", True)])


class Classes(unittest.TestCase):
    def test_comments(self):
        """Names may have the sign of a comment."""
        for line, wanted in (
            ("A=B # tie", "A=B"),
            ("A=B #", "A=B"),
            (" #A=B", ""),
            ("WE#=OE#", "WE#=OE#"),
            ("A=B #2", "A=B #2"),
            ("A=#B", "A=#B"),
        ):
            self.assertEqual(net_ties.COMMENT.sub("", line), wanted)

    def test_a_name_like_a_tie(self):
        """A net whose own name is A=B is neither A nor B."""
        found, names = net_ties.Ties([net_ties.tie("A=B", "")]), types.SimpleNamespace(names=["A", "B", "A=B"])
        self.assertEqual(
            [found.is_tied(names, (0, [(name,) for name in its])) for its in ((0, 1), (0, 2), (0, 1, 2))],
            [True, False, False],
        )

    def test_sides(self):
        found = net_ties.Ties([net_ties.tie(text, "") for text in ("A=B", "C=D", "B=C", "X=Y")])
        self.assertEqual([found.side(name) for name in "ABCDXZ"], ["A=B=C=D"] * 4 + ["X=Y", "Z"])
