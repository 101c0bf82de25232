"""What is declared of a board: in a file beside it, by options and by hints; and that a waiver hides no other finding."""
import json
import os
import unittest
import zipfile

from boardnet_show.base.statuses import Stop
from boardnet_show.findings import waivers
from boardnet_show.fitting import access_codes, declaration_file, placement
from tests.fixtures import common, made
from tests.fixtures.common import counted
from tests.fixtures.hinted import files_of, with_netlist
from tests.fixtures.made import drill, draw, flash, gerber, manifest, netlist, record, region
from tests.fitting.test_hints import STRICT
from tests.fitting.test_placement import with_drills

# Exported as a tool's defaults have it: the netlist from another origin, drills from another one, drills mirrored, digits without points.
DEFAULTS = {
    "netlist": lambda: with_netlist(files_of(), placement.FORMS[0][1], (12345, -678)),
    "unit and mirror": lambda: with_netlist(files_of(unit="0"), placement.FORMS[2][1], (500, 40)),
    "drills": lambda: with_drills(files_of(), 0, (35_000_000, -22_500_000)),
    "mirrored drills": lambda: with_drills(files_of(), 2, (0, 0)),
    "both": lambda: with_netlist(
        with_drills(files_of(), 0, (35_000_000, -22_500_000)), placement.FORMS[0][1], (12345, -678)
    ),
    "layers": lambda: {
        **files_of(),
        "m.json": files_of()["m.json"].replace('["a.gbr", "b.gbr"]', '["b.gbr", "a.gbr"]'),
    },
    # So few holes that the pads do not decide how numbers are read.
    "digits": lambda: files_of(pads=7, number=lambda v: f"{v // 10:06d}"),
}
SIGNED = {"reason": "signed by the customer", "author": "Ann", "date": "2026-12-01"}


class Case(made.Case):
    def put(self, files, folder="board"):
        for name, data in files.items():
            self.write(f"{folder}/{name}", data)
        return folder

    def declare(self, folder="board", **declared):
        self.write(f"{folder}/boardnet.json", json.dumps({"boardnet": 1, **declared}))

    def json_of(self, *words, **how):
        status, out, notes = self.show(*words, "--json", "-", **how)
        return status, json.loads(out)["boards"][0] if out else notes


class Changes(Case):
    def programs(self):
        strict = self.write("strict", STRICT, 0o755)
        return [strict if program == made.STAND_IN else program for program in self.over_both()]

    def test_hints_are_taken_and_written(self):
        """One option, and with what it wrote none; the files stay as they are."""
        for program in self.programs():
            for row, (name, files) in enumerate(DEFAULTS.items()):
                with self.subTest(name):
                    folder, files = f"row{row} {os.path.basename(program)}", files()
                    self.put(files, folder)
                    self.assertIn(self.show(folder, program=program)[0], (1, 3))
                    status, out, _ = self.show(
                        folder, "--take-hints", "--write-declarations", f"{folder}/boardnet.json", program=program
                    )
                    self.assertEqual(
                        (
                            status,
                            counted(out).startswith(f"PASS {folder}: copper and the netlist agree, with "),
                            "declared: " in out,
                        ),
                        (0, True, True),
                        out,
                    )
                    status, again, _ = self.show(folder, program=program)
                    self.assertEqual((status, again.split("\n")[0]), (0, out.split("\n")[0]))
                    self.assertIn("(boardnet.json)", again)
                    for file, text in files.items():
                        self.assertEqual(
                            self.read(f"{folder}/{file}"), text if isinstance(text, str) else text.decode()
                        )
                    os.remove(self.path(folder, "boardnet.json"))

    def test_what_names_the_answer_that_is_told(self):
        """Files are kept, and findings waived, of the answer by the hint that is taken, and not of the one before it."""
        files = with_netlist(files_of(), placement.FORMS[0][1], (12345, -678))
        self.put(files)
        self.assertEqual(self.show("board", "--take-hints", "--keep", "kept")[0], 0)
        self.assertEqual(self.show("kept")[0], 0)
        # Before it nearly all is missing: no finding of these names is left behind it.
        words = ("--take-hints", "--waive", "missing-0=x", "--author", "Ann")
        self.assertEqual(self.show("board", *words)[0], 2)

    def test_no_hint_that_agrees(self):
        """A hint that leaves faults is not taken, and that is told."""
        files = with_netlist(files_of(), placement.FORMS[0][1], (12345, -678))
        files["a.gbr"] = files["a.gbr"].replace(
            [line for line in files["a.gbr"].splitlines(True) if line.endswith("D01*\n")][3], ""
        )
        self.put(files)
        status, out, _ = self.show("board", "--take-hints")
        self.assertEqual(
            (status, "no hint is taken, since none agrees" in out, ", with" in counted(out)), (1, True, False), out
        )

    def test_what_fits_as_well(self):
        """Another placement with as many points on copper and one fault: which is right is not known, and none is taken."""
        pads = [(2 * k, 0) for k in range(12)]
        pairs = [made.draw(11, pads[k], pads[k + 1]) for k in range(0, 12, 2)]
        points = [made.record("ABCDE"[k // 2], f"U{k}.1", 2 * k + 50, 0) for k in range(10)]
        for tracks, flashed, status in ((pairs[1:], pads, 1), (pairs, pads, 0), (pairs[:5], pads[:10], 0)):
            copper = made.gerber(*made.flash(10, *flashed), *(line for track in tracks for line in track))
            self.put({"m.json": made.manifest(), "top.gbr": copper, "n.ipc": made.netlist(*points)})
            found, out, _ = self.show("board", "--take-hints")
            self.assertEqual((found, "which fits about as well, the board fails" in out), (status, status == 1), out)
            self.assertEqual("which is right is not known" in self.show("board")[1], status == 1)

    def test_options(self):
        """Each as a hint says it, by words and as JSON."""
        rows = [
            ("netlist", "netlist moved=-12.345,0.678"),
            ("netlist", '{"of": "netlist", "moved": ["-12.345", 0.678]}'),
            ("drills", "drills moved=-3.5,2.25"),
            ("drills", "drills files=p.drl moved=-3.5,2.25"),
            ("mirrored drills", "drills turn=mirrored_upside_down"),
            ("layers", "layers order=a.gbr,b.gbr"),
            ("digits", "digits file=p.drl decimals=3"),
        ]
        for row, (name, words) in enumerate(rows):
            self.put(DEFAULTS[name](), f"row{row}")
            status, out, notes = self.show(f"row{row}", "--with", words, program=self.programs()[0])
            self.assertEqual(
                (status, counted(out)),
                (0, f"PASS row{row}: copper and the netlist agree, with 1 declaration"),
                (words, out, notes),
            )

    def test_digits_of_many_holes(self):
        """Where pads decide how numbers are read, and that is asked, declared digits are what is said of them."""
        self.put(files_of(number=lambda v: f"{v // 10:06d}"))
        program = self.programs()[0]
        self.assertEqual(self.show("board", program=program)[0], 10)
        self.assertEqual(self.show("board", "--with", "digits file=p.drl decimals=3", program=program)[0], 0)
        self.assertEqual(self.show("board", "--with", "digits file=p.drl decimals=4", program=program)[0], 1)

    def test_order(self):
        """Changes are made in the order in which they are declared: turned and then moved is not moved and then turned."""
        self.put(with_netlist(files_of(), placement.FORMS[1][1], (5000, 0)))
        turn, move = {"of": "netlist", "turn": "mirrored left to right"}, {"of": "netlist", "moved": [5, 0]}
        for changes, status in (([{**turn, **move}], 0), ([turn, move], 0), ([move, turn], 1)):
            self.declare(changes=changes)
            self.assertEqual(self.show("board")[0], status, changes)

    def test_copper(self):
        files = with_drills(files_of(), 0, (35_000_000, -22_500_000))
        files["n.ipc"] = placement.moved(files["n.ipc"], placement.FORMS[0][1], (3500, -2250))
        self.put(files)
        status, out, _ = self.show("board", "--with", "copper moved=3.5,-2.25")
        self.assertEqual((status, "declared: the copper moved by (3.500, -2.250) mm (--with)" in out), (0, True), out)

    def test_declared_of_the_last_revision(self):
        """Where a later revision is exported as it should be, what was declared no longer fits, which is told."""
        self.put(files_of())
        self.declare(changes=[{"of": "netlist", "moved": [-12.345, 0.678]}])
        status, out, _ = self.show("board")
        self.assertEqual((status, "without its changes they agree" in out), (1, True), out)

    def test_stale(self):
        """What changes nothing is told as stale, and the answer stands."""
        for change in (
            {"of": "digits", "files": [{"file": "p.drl", "decimals": 3}]},
            {"of": "layers", "order": ["a.gbr", "b.gbr"]},
            {"of": "codes", "rule": "bottom"},
        ):
            self.put(files_of())
            self.declare(changes=[change])
            status, out, _ = self.show("board")
            self.assertEqual(
                (status, counted(out)),
                (0, "PASS board: copper and the netlist agree, with 1 declaration and 1 of what is declared stale"),
                out,
            )
            self.assertIn("stale: it changes nothing of these files", out)

    def test_what_does_not_fit(self):
        """Files that are not there, and places that six digits do not hold."""
        rows = [
            ({"of": "drills", "files": ["q.drl"], "moved": [1, 0]}, "the board has no drill file q.drl"),
            ({"of": "layers", "order": ["a.gbr", "c.gbr"]}, "the copper files are a.gbr, b.gbr"),
            ({"of": "netlist", "moved": [5000, 0]}, "six digits do not hold"),
        ]
        self.put(files_of())
        for change, why in rows:
            self.declare(changes=[change])
            status, out, _ = self.show("board")
            self.assertEqual((status, why in out), (10, True), out)

    def test_is_told_everywhere(self):
        """JSON, the record and its verification, the page, and what --keep keeps."""
        self.put(DEFAULTS["netlist"]())
        self.declare(changes=[{"of": "netlist", "moved": [-12.345, 0.678]}])
        words = ["--json", "b.json", "--record", "r.json", "--page", "p.html", "--keep", "kept"]
        self.assertEqual(self.show("board", *words)[0], 0)
        (told,) = json.loads(self.read("b.json"))["boards"]
        self.assertEqual(
            told["declarations"],
            [
                {
                    "of": "netlist",
                    "moved": [-12.345, 0.678],
                    "words": "the netlist moved by (-12.345, 0.678) mm",
                    "source": "boardnet.json",
                    "stale": False,
                    "made_before": False,
                }
            ],
        )
        self.assertEqual(
            json.loads(self.read("r.json"))["declared"],
            ["declared: the netlist moved by (-12.345, 0.678) mm (boardnet.json)"],
        )
        self.assertIn("n.ipc (as declared)", self.read("p.html"))
        self.assertEqual(self.show("board", "--verify", "r.json")[0], 0)
        os.remove(self.path("board", "boardnet.json"))
        self.assertEqual(self.show("board", "--verify", "r.json")[0], 1)
        # The kept files have the change: it is told, and not made again.
        status, out, _ = self.show("kept")
        self.assertEqual(
            (status, counted(out), "made of these files before" in out),
            (0, "PASS kept: copper and the netlist agree, with 1 declaration", True),
            out,
        )


class Sorted(Case):
    """Which file is what, of a folder without a manifest."""

    FILES = {
        "top.gbr": gerber(*flash(10, (0, 0), (5, 0))),
        "bottom.gbr": gerber(*flash(10, (0, 0), (5, 0)), *draw(11, (0, 0), (5, 0))),
        "holes.drl": drill((0.0, 0.0), (5.0, 0.0)),
        "n.ipc": netlist(record("A", "J1.1", 0, 0, "00"), record("A", "J1.2", 5, 0, "00")),
    }

    def test_taken(self):
        """What --yes takes is written; with it the next revision wants no option, and another guess does."""
        self.put(self.FILES)
        self.assertEqual(self.show("board")[0], 10)
        self.assertEqual(self.show("board", "--yes", "--write-declarations", "board/boardnet.json")[0], 0)
        status, out, _ = self.show("board")
        self.assertEqual(
            (status, counted(out)), (0, "PASS board: copper and the netlist agree, with 3 declarations"), out
        )
        self.put({"inner1.gbr": gerber(*flash(10, (0, 0), (5, 0)))})
        self.assertEqual(self.show("board")[0], 10)

    def test_readings(self):
        """What the board alone says of a file, and --yes takes, is written and taken again; another reading is not."""
        files = files_of()
        files["n.ipc"] = files["n.ipc"].replace("P  UNITS CUST 1\n", "")
        self.put(files)
        for program in self.over_both():
            self.assertEqual(self.show("board", program=program)[0], 10)
            self.assertEqual(
                self.show("board", "--yes", "--write-declarations", "board/boardnet.json", program=program)[0], 0
            )
            status, out, _ = self.show("board", program=program)
            self.assertEqual(
                (status, counted(out)), (0, "PASS board: copper and the netlist agree, with 1 declaration"), out
            )
            (taken,) = json.loads(self.read("board/boardnet.json"))["taken"]
            self.declare(taken=[{**taken, "as": taken["as"] + " of another board"}])
            self.assertEqual(self.show("board", program=program)[0], 10)
            os.remove(self.path("board", "boardnet.json"))

    def test_plated(self):
        """A drill file is declared to be plated; one that says itself that it is not is refused."""
        self.put(self.FILES)
        taken = [{"file": "top.gbr", "as": "copper layer 1"}, {"file": "bottom.gbr", "as": "copper layer 2"}]
        self.declare(taken=taken, plated=[{"file": "holes.drl", "from": 1, "to": 2}])
        self.assertEqual(self.show("board")[0], 0)
        for head in (
            "; #@! TF.FileFunction,NonPlated,1,2,NPTH\n",
            "; #@! TF.FileFunction,Plated,1,1,PTH\n",
            ";TYPE=NON_PLATED\n",
        ):
            self.put({"holes.drl": self.FILES["holes.drl"].replace("METRIC", head + "METRIC")})
            status, out, _ = self.show("board")
            self.assertEqual((status, "is declared to " in out), (10, True), out)

    def test_archives(self):
        """In an archive, beside it under its name, and beside it where it stands alone; two are refused."""
        files = DEFAULTS["netlist"]()
        text = json.dumps({"boardnet": 1, "changes": [{"of": "netlist", "moved": [-12.345, 0.678]}]})

        def archive(name, more):
            with zipfile.ZipFile(self.path(name), "w") as file:
                for each, data in {**files, **more}.items():
                    file.writestr(each, data)

        os.makedirs(self.path("in"))
        archive("in/a.zip", {})
        self.assertEqual(self.show("in/a.zip")[0], 1)
        self.write("in/boardnet.json", text)
        self.assertEqual(self.show("in/a.zip")[0], 0)
        archive("in/b.zip", {})
        self.assertEqual(self.show("in/a.zip")[0], 1)
        self.write("in/a.boardnet.json", text)
        self.assertEqual((self.show("in/a.zip")[0], self.show("in/b.zip")[0]), (0, 1))
        archive("in/b.zip", {"boardnet.json": text})
        self.assertEqual(self.show("in/b.zip")[0], 0)
        self.write("in/b.boardnet.json", text)
        self.assertEqual(self.show("in/b.zip")[0], 2)
        self.assertEqual(self.show("in/b.zip", "--declare", "in/b.boardnet.json")[0], 0)

    def test_ties_beside_an_archive(self):
        with zipfile.ZipFile(self.path("a.zip"), "w") as file:
            for name, data in SHORT.items():
                file.writestr(name, data)
        self.assertEqual(self.show("a.zip")[0], 1)
        self.write("a.ties.txt", "GND=AGND\n")
        self.assertEqual(self.show("a.zip")[0], 0)


def joined(*more, records=()):
    """GND on the left and AGND on the right, each of two pads and a track, joined by a track at x = 5."""
    copper = [
        *flash(10, (0, 0), (0, 5), (10, 0), (10, 5)),
        *draw(11, (0, 0), (0, 5)),
        *draw(11, (10, 0), (10, 5)),
        *draw(11, (0, 0), (10, 0)),
        *more,
    ]
    points = [
        record("GND", "J1.1", 0, 0),
        record("GND", "J1.2", 0, 5),
        record("AGND", "J2.1", 10, 0),
        record("AGND", "J2.2", 10, 5),
        *records,
    ]
    return {"m.json": manifest(), "top.gbr": gerber(*copper), "n.ipc": netlist(*points)}


SHORT = joined()


class Waivers(Case):
    def waive(self, files, *names, status=0):
        """Has findings of a board waived, and written beside it."""
        self.put(files)
        words = [word for name in names for word in ("--waive", f"{name}=signed by the customer")]
        self.assertEqual(
            self.show("board", *words, "--author", "Ann", "--write-declarations", "board/boardnet.json")[0], status
        )

    def counts_after(self, files):
        """What is told of a later revision: its status, how many waivers count, and how many are stale."""
        self.put(files)
        status, told = self.json_of("board")
        return status, len(told["waived"]), len(told["stale_waivers"])

    def test_short(self):
        """The short that was signed for; not where the same nets meet elsewhere too, over a track, a plane, or a further piece at the place."""
        for program in self.over_both():
            self.waive(SHORT, "short-0")
            status, out, _ = self.show("board", program=program)
            self.assertEqual(
                (status, counted(out)),
                (0, "PASS board: copper and the netlist agree, but for what is signed for, with 1 waiver"),
            )
            self.assertIn("short-0 of GND and AGND, waived by Ann on ", out)
        again = [
            draw(11, (0, 5), (10, 5)),
            draw(11, (0, 3), (10, 2)),
            region((-1, 2), (11, 2), (11, 3), (-1, 3)),
            draw(11, (0, 5), (5, 9)) + draw(11, (5, 9), (10, 5)),
        ]
        for more in again:
            self.assertEqual(self.counts_after(joined(*more)), (1, 0, 1), more)
        self.assertEqual(self.counts_after(joined(*draw(11, (4, 0.5), (6, 0.5)))), (0, 1, 0))
        self.assertEqual(self.counts_after(joined(*draw(11, (0, 3), (3, 3)))), (0, 1, 0))

    def test_short_of_a_third_net(self):
        third = record("SIG", "R1.1", 5, 0)
        self.waive(SHORT, "short-0")
        self.assertEqual(self.counts_after(joined(records=[third])), (1, 0, 1))

    def test_short_of_planes(self):
        """Two planes that overlap at the place, and in a later revision at another one too."""
        left = region((-1, -1), (5, -1), (5, 1), (-1, 1))
        one, two = region((4.8, 0), (11, 0), (11, 0.2), (4.8, 0.2)), region(
            (4.8, 0), (11, 0), (11, 8), (-1, 8), (-1, 0.9), (-0.8, 0.9), (-0.8, 7), (10, 7), (10, 0.2), (4.8, 0.2)
        )
        points = [record("GND", "J1.1", 0, 0), record("AGND", "J2.1", 10.5, 0.1)]
        board = lambda right: {"m.json": manifest(), "top.gbr": gerber(*left, *right), "n.ipc": netlist(*points)}
        self.waive(board(one), "short-0")
        self.assertEqual(self.counts_after(board(one))[:2], (0, 1))
        self.assertEqual(self.counts_after(board(two))[:2], (1, 0))

    def test_open(self):
        """By the pins that stand apart: not where there are more of them, nor another pad of the same pin."""
        pads = lambda *places: {
            "m.json": manifest(),
            "top.gbr": gerber(*flash(10, (0, 0), (5, 0), (10, 0), (15, 0)), *draw(11, *places)),
            "n.ipc": netlist(
                *(record("A", pin, x, 0) for pin, x in (("U1.1", 0), ("U1.2", 5), ("U1.9", 10), ("U1.9", 15)))
            ),
        }
        first = pads((0, 0), (10, 0))
        self.waive(first, "open-0")
        self.assertEqual(self.counts_after(first), (0, 1, 0))
        self.assertEqual(self.counts_after(pads((0, 0), (5, 0))), (1, 1, 0))
        other = pads((0, 0), (5, 0))
        other["top.gbr"] = other["top.gbr"].replace(
            "M02*", "\n".join([*draw(11, (5, 0), (5, 3), (15, 3), (15, 0)), "M02*"])
        )
        self.assertEqual(self.counts_after(other), (1, 0, 1))
        self.assertEqual(self.counts_after(pads((0, 0), (15, 0))), (0, 0, 1))

    def test_open_of_more_pins(self):
        board = lambda *tracks: {
            "m.json": manifest(),
            "top.gbr": gerber(
                *flash(10, (0, 0), (5, 0), (10, 0), (15, 0)), *(it for track in tracks for it in draw(11, *track))
            ),
            "n.ipc": netlist(*(record("A", f"J{k}.1", 5 * k, 0) for k in range(4))),
        }
        self.waive(board(((0, 0), (10, 0))), "open-0")
        self.assertEqual(self.counts_after(board(((0, 0), (5, 0)), ((10, 0), (15, 0)))), (1, 0, 1))

    def test_missing(self):
        """By pin and place."""
        board = lambda x: {
            "m.json": manifest(),
            "top.gbr": gerber(*flash(10, (0, 0))),
            "n.ipc": netlist(record("A", "J1.1", 0, 0), record("B", "R9.1", x, 3)),
        }
        self.waive(board(3), "missing-0")
        self.assertEqual(self.counts_after(board(3)), (0, 1, 0))
        self.assertEqual(self.counts_after(board(3.1)), (1, 0, 1))
        self.assertEqual(
            self.counts_after({**board(3), "n.ipc": netlist(record("A", "J1.1", 0, 0), record("C", "R9.1", 3, 3))}),
            (1, 0, 1),
        )

    def test_stale_alone(self):
        """A board that has it no longer agrees, and the waiver is told."""
        self.waive(SHORT, "short-0")
        files = joined()
        files["top.gbr"] = files["top.gbr"].replace("\n".join(draw(11, (0, 0), (10, 0))), "")
        self.put(files)
        status, out, _ = self.show("board")
        self.assertEqual(
            (status, counted(out)),
            (0, "PASS board: copper and the netlist agree, with 1 of what is declared stale"),
            out,
        )

    def test_between_bounds(self):
        """On a board between two the upper one is looked at too: what it joins elsewhere is no waived short."""
        bent = ["G75*", *draw(11, (20, 20), (21, 20))[:2], "G03X21000000Y20000000I500000J0D01*", "G01*"]
        self.waive(joined(*bent), "short-0")
        status, told = self.json_of("board")
        self.assertEqual((status, len(told["waived"]), told["certain"]), (0, 1, 0), told["line"])
        self.assertIn(", with 1 waiver, between two bounds", told["line"])
        self.assertEqual(self.counts_after(joined(*bent, *draw(11, (0, 3), (10, 2))))[:2], (1, 0))

    def test_forms(self):
        """JUnit has it as skipped, SARIF as suppressed, KLayout's markers apart; neither page nor text says that all is joined as it should be."""
        self.waive(SHORT, "short-0")
        self.assertEqual(
            self.show(
                "board",
                "--junit",
                "j.xml",
                "--sarif",
                "s.json",
                "--rdb",
                "r.lyrdb",
                "--page",
                "p.html",
                "--record",
                "r.json",
            )[0],
            0,
        )
        self.assertEqual(self.read("j.xml").count("<skipped message="), 2)
        (result,) = json.loads(self.read("s.json"))["runs"][0]["results"]
        self.assertEqual((result["ruleId"], result["suppressions"][0]["status"]), ("short", "accepted"))
        self.assertIn("<category>waived</category>", self.read("r.lyrdb"))
        self.assertNotIn("joins exactly", self.read("p.html"))
        self.assertIn("signed by the customer", self.read("p.html"))
        self.assertEqual(self.show("board", "--verify", "r.json")[0], 0)

    def test_words(self):
        self.put(SHORT)
        for words, status in (
            (["--waive", "short-0=x"], 2),
            (["--waive", "short-1=x", "--author", "Ann"], 2),
            (["--waive", "short-0", "--author", "Ann"], 2),
        ):
            self.assertEqual(self.show("board", *words)[0], status, words)


class Files(unittest.TestCase):
    """The form of the file: what is not understood is refused."""

    WAIVER = {"kind": "open", "names": ["A"], "pins": [["J1-1"]], **SIGNED}
    GAP = {
        "kind": "gap",
        "names": ["A", "B"],
        "nets": [["A", "B"], []],
        "pins": [],
        "places": [{"x": 0, "y": 1, "layer": 1, "distance": 0.1}],
        "within": 0.5,
    }
    NECK = {
        "kind": "neck",
        "parts": 2,
        "places": [{"x": 0, "y": 1, "layer": 1}],
        "without_copper": ["J1-1"],
        "within": 2,
        "width": 0.15,
        "undecided": True,
    }

    def test_refused(self):
        rows = [
            "",
            "[]",
            "{}",
            '{"boardnet": 2}',
            '{"boardnet": true}',
            '{"boardnet": 1, "boardnet": 1}',
            '{"boardnet": 1, "waiver": []}',
            '{"boardnet": 1, "changes": {}}',
            *(
                {"changes": [it]}
                for it in (
                    {},
                    {"of": "net"},
                    {"of": "netlist"},
                    {"of": "netlist", "moved": [1]},
                    {"of": "netlist", "moved": [1, "1 mm"]},
                    {"of": "netlist", "moved": [1, True]},
                    {"of": "netlist", "moved": [0.12345678, 0]},
                    {"of": "netlist", "turned": "by half"},
                    {"of": "netlist", "turn": "by half"},
                    {"of": "netlist", "unit": "mil"},
                    {"of": "drills"},
                    {"of": "drills", "files": []},
                    {"of": "layers", "order": "a"},
                    {"of": "digits", "files": [{"file": "p"}]},
                    {"of": "digits", "files": [{"file": "p", "decimals": 0}]},
                    {"of": "codes", "rule": "all"},
                )
            ),
            {"ties": [["A"]]},
            {"ties": [["A", "B=C"]]},
            {"taken": [{"file": "a"}]},
            {"plated": [{"file": "a", "from": 2, "to": 1}]},
            {"no_drills": False},
            *(
                {"waivers": [{**self.WAIVER, **it}]}
                for it in (
                    {"kind": "gap"},
                    {"kind": "tie"},
                    {**self.GAP, "nets": [["A"]]},
                    {**self.GAP, "nets": [["A"], ["C"]]},
                    {**self.GAP, "places": [{"x": 0, "y": 0, "layer": 1}]},
                    {**self.GAP, "within": 0.09},
                    {**self.GAP, "width": 1},
                    {**self.NECK, "parts": 0},
                    {**self.NECK, "width": -1},
                    {**self.NECK, "places": []},
                    {**self.NECK, "kind": "cut"},
                    {"undecided": False},
                    {"kind": "short"},
                    {"kind": "missing"},
                    {"reason": " "},
                    {"author": ""},
                    {"date": "1.12.2026"},
                    {"names": []},
                    {"pins": []},
                    {"within": 1},
                    {"kind": "short", "places": [{"x": 0, "y": 0, "layer": 1}], "within": 6},
                    {"kind": "short", "places": [{"x": 0, "y": 0}]},
                )
            ),
        ]
        for row in rows:
            text = row if isinstance(row, str) else json.dumps({"boardnet": 1, **row})
            with self.assertRaises(Stop, msg=text) as told:
                declaration_file.of_bytes(text.encode(), "boardnet.json")
            self.assertTrue(str(told.exception).startswith("boardnet.json: "))

    def test_schema(self):
        """The schema has the words that are read."""
        with open(os.path.join(common.TOP, "docs", "using", "boardnet.schema.json"), encoding="utf-8") as file:
            schema = json.load(file)
        change, waiver = (schema["definitions"][name] for name in ("change", "waiver"))
        self.assertEqual(set(schema["properties"]), {"boardnet", *declaration_file.KEYS, "netlist", "no_drills"})
        self.assertEqual([it["properties"]["of"]["const"] for it in change["oneOf"]], list(declaration_file.CHANGES))
        self.assertEqual(schema["definitions"]["turn"]["enum"], declaration_file.TURNS[1:])
        self.assertEqual(change["oneOf"][0]["properties"]["unit"]["enum"], list(declaration_file.UNITS))
        self.assertEqual(change["oneOf"][-1]["properties"]["rule"]["enum"], [name for name, _ in access_codes.RULES])
        self.assertEqual(
            (waiver["properties"]["kind"]["enum"], set(waiver["required"])),
            (list(waivers.KINDS), set(SIGNED) | {"kind", "names"}),
        )
        self.assertEqual(set(waiver["properties"]), set(SIGNED) | {"kind", "names", *declaration_file.WAIVER_KEYS})
        for words in ('{"boardnet": 1, "changes": [%s]}' % it for it in self.SAMPLES):
            declaration_file.of_bytes(words.encode(), "f")

    SAMPLES = [
        '{"of": "netlist", "unit": "mm"}',
        '{"of": "drills", "turn": "turned by half"}',
        '{"of": "copper", "moved": [1, "2.5"]}',
        '{"of": "layers", "order": ["a"]}',
        '{"of": "digits", "files": [{"file": "p", "decimals": 2}]}',
        '{"of": "codes", "rule": "holes"}',
    ]

    def test_back(self):
        """What is written is read as what it was."""
        text = json.dumps(
            {
                "boardnet": 1,
                "changes": [
                    {"of": "netlist", "unit": "inch", "turn": "turned by a quarter", "moved": [-1.2345678, 12]},
                    {"of": "drills", "files": ["a"], "moved": ["0.5", 0]},
                    {"of": "copper", "turn": "turned by half"},
                    {"of": "layers", "order": ["a", "b"]},
                    {"of": "digits", "files": [{"file": "p", "decimals": 3, "digits": 7}]},
                    {"of": "codes", "rule": "bottom"},
                ],
                "made": [{"of": "drills", "moved": [1, 2]}],
                "taken": [{"file": "a", "as": "copper layer 1"}],
                "plated": [{"file": "p", "from": 1, "to": 2}],
                "ties": [["A", "B"]],
                "waivers": [
                    self.WAIVER,
                    {
                        "kind": "short",
                        "names": ["A", "B"],
                        "places": [{"x": 1.5, "y": -2, "layer": 3}],
                        "within": 0.25,
                        **SIGNED,
                    },
                    {**self.GAP, **SIGNED},
                    {**self.WAIVER, **self.NECK},
                ],
                "netlist": "n.ipc",
                "no_drills": True,
            }
        )
        declared = declaration_file.of_bytes(text.encode(), "f")
        self.assertEqual(declaration_file.of_bytes(declaration_file.file_text(declared).encode(), "f"), declared)


if __name__ == "__main__":
    unittest.main()
