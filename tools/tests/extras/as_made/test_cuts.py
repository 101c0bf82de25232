"""What unplated holes and the board's edge part when the board is made, over the stand-in and over the built program."""
import json
import random

from tests.extras.as_made.raster import CELL, Raster, cell_of
from tests.fixtures import made
from tests.fixtures.common import SURE
from tests.fixtures.made import draw, drill, flash, gerber, manifest, netlist, record, region

# A track of 0.2 mm from a disc of 1 mm at 0 to one at 10 mm.
TRACK = [*flash(10, (0, 0), (10, 0)), *draw(11, (0, 0), (10, 0))]
ENDS = netlist(record("A", "J1.1", 0, 0), record("A", "J1.2", 10, 0))
PLATED = ["; #@! TF.FileFunction,Plated,1,2,PTH"]
OUTLINE = ["%TF.FileFunction,Profile,NP*%"]
PARTED = (
    "the unplated hole of 3.000 mm at 5.000, {y} mm (npth.drl line {line}) parts A: J1 pin 1 (the one layer, 0.000, 0.000 mm) and "
    "J1 pin 2 (the one layer, 10.000, 0.000 mm) are not joined on the board as it is made."
)


def unplated(*words, size="3.0"):
    """A drill file of unplated holes, the words from line 7 on."""
    return "\n".join(
        ("M48", "; #@! TF.FileFunction,NonPlated,1,1,NPTH", "METRIC", f"T1C{size}", "%", "T1", *words, "M30", "")
    )


def board(copper, holes="", netlist_text=ENDS, **more):
    files = {"m.json": manifest(), "top.gbr": gerber(*copper), "n.ipc": netlist_text, **more}
    return {**files, "npth.drl": holes} if holes else files


def profile(*places):
    return gerber(*OUTLINE, *draw(11, *places, places[0]))


class AsMade(made.Case):
    def told(self, files, *words, program=made.STAND_IN):
        self.board(files)
        status, out, notes = self.show("board", "--json", "-", *words, program=program)
        return status, json.loads(out)["boards"][0], notes

    def found(self, files, *words, **more):
        """Status, ids and nets of the findings, and the notes."""
        status, told, _ = self.told(files, *words, **more)
        return status, [(it["id"], it.get("sure")) for it in told["findings"]], told["notes"]

    ROWS = [
        # copper, holes, status, findings
        # The track is from -0.1 to 0.1: a hole of 1.5 mm radius that ends there takes nothing, one unit nearer a little, one unit from its other border nearly all.
        (TRACK, ["X5.0Y-1.6"], 0, []),
        (TRACK, ["X5.0Y-1.5999999"], 0, []),
        (TRACK, ["X5.0Y-1.401"], 0, []),
        (TRACK, ["X5.0Y-1.4000001"], 11, [("cut-0", False)]),
        (TRACK, ["X5.0Y-1.399999"], 1, [("cut-0", None)]),
        (TRACK, ["X5.0Y0.0"], 1, [("cut-0", None)]),
        (TRACK, ["X5.0Y0.0", "X7.0Y0.0"], 1, [("cut-0", None)]),
        # Slots and routs.
        (TRACK, ["X3.0Y5.0G85X3.0Y-5.0"], 1, [("cut-0", None)]),
        (TRACK, ["G00X3.0Y5.0", "M15", "G01X3.0Y-5.0", "M16", "G05"], 1, [("cut-0", None)]),
        (TRACK, ["X3.0Y5.0G85X8.0Y5.0"], 0, []),
        # The pad's copper goes with its middle; the track's end stays, and its point is without copper.
        (TRACK, ["X0.0Y0.0"], 1, [("cut-0", None)]),
    ]

    def test_rows(self):
        for program in self.over_both():
            for copper, holes, status, wanted in self.ROWS:
                with self.subTest(holes=holes, program=program):
                    self.assertEqual(self.found(board(copper, unplated(*holes)), program=program)[:2], (status, wanted))

    def test_words(self):
        self.board(board(TRACK, unplated("X5.0Y0.0")))
        status, out, _ = self.show("board")
        self.assertEqual(
            (status, out.splitlines()),
            (
                1,
                [
                    f"FAIL board: as it is made, 1 cut; copper and the netlist agree at all 2 test points. Of the netlist certain{SURE[7:]}",
                    "A",
                    "  cut-0: " + PARTED.format(y="0.000", line=7),
                ],
            ),
        )

    def test_what_parts_it_is_named(self):
        """Of two holes that the net has that one that parts it alone; of two that part it together both."""
        wide = [*flash(10, (0, 0), (10, 0)), *region((0, -0.2), (10, -0.2), (10, 2.5), (0, 2.5))]
        for holes, words in ((["X5.0Y3.0", "X5.0Y0.0"], None), (["X5.0Y1.2", "X5.0Y-1.5"], None)):
            self.board(board(wide, unplated(*holes)))
            self.show("board", "--json", "j.json")
        self.board(board(TRACK, unplated("X5.0Y-1.55", "X5.0Y0.0")))
        _, out, _ = self.show("board")
        self.assertIn("the unplated hole of 3.000 mm at 5.000, 0.000 mm (npth.drl line 8) parts A", out)
        self.board(board(wide, unplated("X5.0Y0.3", "X5.0Y2.6")))
        _, out, _ = self.show("board")
        self.assertIn(
            "(npth.drl line 7) and the unplated hole of 3.000 mm at 5.000, 2.600 mm (npth.drl line 8) part A", out
        )
        self.board(board(wide, unplated("X5.0Y0.3")))
        status, out, _ = self.show("board")
        self.assertEqual((status, "cuts copper and parts nothing" in out), (0, True))

    def test_a_slot_and_a_second_one_part_a_plane(self):
        plane = [*flash(10, (1, 1), (9, 1)), *region((0, 0), (10, 0), (10, 10), (0, 10))]
        ends = netlist(record("A", "J1.1", 1, 1), record("A", "J1.2", 9, 1))
        one, two = "X5.0Y-1.0G85X5.0Y5.5", "X5.0Y4.5G85X5.0Y11.0"
        for holes, status in (([one], 0), ([two], 0), ([one, two], 1)):
            self.assertEqual(self.found(board(plane, unplated(*holes, size="0.5"), ends))[0], status, holes)

    def test_what_is_left_out(self):
        """Plated holes, and files that do not say that they are unplated, take nothing; --no-cuts says that nothing was looked at."""
        holes = unplated("X5.0Y0.0")
        self.assertEqual(self.found(board(TRACK, holes.replace("NonPlated,1,1,NPTH", "Plated,1,1,PTH")))[:2], (0, []))
        self.assertEqual(
            self.found(board(TRACK, holes.replace("; #@! TF.FileFunction,NonPlated,1,1,NPTH", ";TYPE=PLATED")))[:2],
            (0, []),
        )
        self.assertEqual(
            self.found(board(TRACK, holes.replace("; #@! TF.FileFunction,NonPlated,1,1,NPTH", ";TYPE=NON_PLATED")))[:2],
            (1, [("cut-0", None)]),
        )
        status, found, notes = self.found(board(TRACK, holes), "--no-cuts")
        self.assertEqual((status, found), (0, []))
        self.assertEqual(notes, ["not looked at, as --no-cuts asks: the copper that 1 unplated hole would take away"])

    def test_numbers_that_are_not_known(self):
        """Holes whose numbers have no point are not guessed."""
        # So are repeats, arcs, and places of a rout without their code.
        for words in (
            ["X5000Y0"],
            ["X5.0Y9.0", "R1Y-9.0"],
            ["G00X5.0Y5.0", "M15", "G01", "X5.0Y-5.0", "M16"],
            ["G00X4.0Y1.0", "M15", "G03X6.0Y1.0A1.0", "M16"],
        ):
            status, found, notes = self.found(board(TRACK, unplated(*words)))
            self.assertEqual(
                (status, found, notes),
                (0, [], ["npth.drl: its unplated holes are not read, so nothing is said of what they cut"]),
            )
        flashes = gerber("%TF.FileFunction,NonPlated,1,1,NPTH*%", *flash(10, (5, 0)))
        status, found, notes = self.found(board(TRACK, **{"npth.gbr": flashes}))
        self.assertEqual(
            (status, found, notes[-1:]),
            (0, [], ["npth.gbr: its unplated holes are not read, so nothing is said of what they cut"]),
        )

    def test_unplated_tools_of_a_mixed_file(self):
        two = [*flash(10, (0, 0), (10, 0)), *draw(11, (0, 0), (10, 0))]
        mixed = "\n".join(
            (
                "M48",
                "; #@! TF.FileFunction,MixedPlating,1,2",
                "METRIC",
                "; #@! TA.AperFunction,Plated,PTH,ViaDrill",
                "T1C0.4",
                "; #@! TA.AperFunction,NonPlated,NPTH,ComponentDrill",
                "T2C3.0",
                "%",
                "T1",
                "X0.0Y0.0",
                "X10.0Y0.0",
                "T2",
                "X5.0Y0.0",
                "M30",
                "",
            )
        )
        files = {
            "m.json": manifest(["top.gbr", "bot.gbr"], [("p.drl", 1, 2)]),
            "top.gbr": gerber(*two),
            "bot.gbr": gerber(*flash(10, (0, 0), (10, 0))),
            "p.drl": mixed,
            "n.ipc": netlist(record("A", "J1.1", 0, 0, "00"), record("A", "J1.2", 10, 0, "00")),
        }
        self.assertEqual(self.found(files)[:2], (1, [("cut-0", None)]))
        self.assertEqual(
            self.found({**files, "bot.gbr": gerber(*flash(10, (0, 0), (10, 0)), *draw(11, (0, 0), (5, 9), (10, 0)))})[
                :2
            ],
            (0, []),
        )

    def test_between_bounds(self):
        """An arc above a hole that ends at its lower border, or bites half of it, or takes it whole."""
        arc = [
            *flash(10, (-5, 0), (5, 0)),
            "%ADD20C,0.2*%",
            "D20*",
            "G75*",
            "X5000000Y0D02*",
            "G03X-5000000Y0I-5000000J0D01*",
            "G01*",
        ]
        ends = netlist(record("A", "J1.1", -5, 0), record("A", "J1.2", 5, 0))
        for program in self.over_both():
            for y, status, wanted in (("3.3", 0, []), ("3.5", 0, []), ("5.0", 1, [("cut-0", True)])):
                status_is, found, _ = self.found(board(arc, unplated(f"X0.0Y{y}"), ends), program=program)
                self.assertEqual((status_is, found), (status, wanted), y)

    def test_opens_of_the_design_stay(self):
        """Points that the design does not join are no cuts."""
        apart = [*flash(10, (0, 0), (10, 0)), *draw(11, (0, 0), (4, 0))]
        status, found, _ = self.found(board(apart, unplated("X2.0Y0.0")))
        self.assertEqual((status, [name for name, _ in found]), (1, ["open-0"]))

    def test_the_edge(self):
        square = profile((-2, -2), (12, -2), (12, 2), (-2, 2))
        self.assertEqual(self.found(board(TRACK, **{"edge.gbr": square}))[:2], (0, []))
        # A pad outside, and a track that runs outside alone.
        self.assertEqual(
            self.found(board(TRACK, **{"edge.gbr": profile((-2, -2), (8, -2), (8, 2), (-2, 2))}))[:2],
            (1, [("outside-0", None)]),
        )
        away = [*flash(10, (0, 0), (10, 0)), *draw(11, (0, 0), (0, 5), (10, 5), (10, 0))]
        status, found, _ = self.found(board(away, **{"edge.gbr": square}))
        self.assertEqual((status, found), (1, [("outside-0", None)]))
        status, found, notes = self.found(
            board(TRACK, **{"edge.gbr": gerber(*OUTLINE, *draw(11, (-2, -2), (12, -2), (12, 2)))})
        )
        self.assertEqual((status, found, len(notes)), (0, [], 1))
        self.assertIn("the board's edge is not known", notes[0])
        _, _, notes = self.found(board(TRACK, **{"edge.gbr": profile((50, 50), (62, 50), (62, 54), (50, 54))}))
        self.assertIn("most test points lie outside its profile", notes[0])

    def test_forms(self):
        self.board(board(TRACK, unplated("X5.0Y0.0")))
        status, out, notes = self.show(
            "board",
            "--junit",
            "j.xml",
            "--rdb",
            "r.xml",
            "--sarif",
            "s.json",
            "--page",
            "p.html",
            "--svg",
            "s.svg",
            "--at",
            "cut-0",
            "-q",
        )
        self.assertEqual((status, notes), (1, ""))
        self.assertIn(": cut-0: ", out)
        self.assertIn("cut-0", self.read("j.xml"))
        self.assertIn("<category>cut</category>", self.read("r.xml"))
        self.assertIn('<li id="cut-0">', self.read("p.html"))
        self.assertIn("parts A", self.read("s.svg"))


# ---- random boards against a raster


class Random(made.Case):
    def test_against_a_raster(self):
        """Where copper wider or slimmer by two cells gives one answer, it is that of the made board."""
        draws, decided = random.Random(11), 0
        for _ in range(12):
            spots = [(draws.randrange(1, 8), draws.randrange(1, 8)) for _ in range(4)]
            tracks = [(a, b, 0.5) for a, b in zip(spots, spots[1:])] + [(a, a, 0.5) for a in spots]
            holes = [((draws.randrange(10, 80) / 10, draws.randrange(10, 80) / 10), 0.75) for _ in range(2)]
            copper = [*draw(10, *spots), *flash(10, *spots)]
            records = netlist(*(record("A", f"J1.{k}", *spot) for k, spot in enumerate(dict.fromkeys(spots), 1)))
            text = unplated(*(f"X{x}Y{y}" for (x, y), _ in holes), size="1.5")
            self.board(board(copper, text, records))
            status, _, _ = self.show("board")
            answers = set()
            for slack in (-2 * CELL, 2 * CELL):
                nets = Raster(tracks, holes, slack).nets(9)
                its = [nets.get(cell_of(spot)) for spot in spots]
                answers.add(int(None in its or len(set(its)) > 1))
            if len(answers) == 1:
                decided += 1
                self.assertEqual({status}, answers, (spots, holes))
        self.assertGreater(decided, 4)
