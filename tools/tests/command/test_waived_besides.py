"""Waivers of gaps, necks, cuts and points outside the edge: the finding that was signed for, and no other one."""
import json
import os

from boardnet_show.extras.waived_gaps import MOST_PLACES, Close, covering
from boardnet_show.findings.waivers import WITHIN
from tests.extras.as_made.test_cuts import profile, unplated
from tests.fixtures import made
from tests.fixtures.common import counted
from tests.fixtures.made import draw, flash, gerber, manifest, netlist, record, region

PADS = flash(10, (0, 0), (20, 0), (0, 1.5), (20, 1.5))
NAMES = ("A", "A", "B", "B")


def close(*tracks, names=NAMES, files=("top.gbr",), on="top.gbr"):
    """A from (0, 0) to (20, 0) and B 1.5 mm above it, with tracks of 0.2 mm on one of the files; between both pads lie 0.5 mm."""
    spots = ((0, 0), (20, 0), (0, 1.5), (20, 1.5))
    plain = [*PADS, *draw(11, (0, 0), (0, -3), (20, -3), (20, 0)), *draw(11, (0, 1.5), (0, 4), (20, 4), (20, 1.5))]
    more = [line for track in tracks for line in draw(11, *track)]
    copper = {name: gerber(*(plain if name == "top.gbr" else []), *(more if name == on else [])) for name in files}
    points = netlist(*(record(name, f"J{k}.1", *spot) for k, (name, spot) in enumerate(zip(names, spots), 1)))
    return {"m.json": manifest(files, [("p.drl", 1, 2)] if len(files) > 1 else ()), **copper, "n.ipc": points}


# 0.2 mm between a track of A and one of B at x = 5, and the same at x = 15.
LOW, HIGH = ((5, -3), (5, 0.3)), ((5, 4), (5, 0.7))
FAR = (((15, -3), (15, 0.3)), ((15, 4), (15, 0.7)))


def moved(track, by):
    return tuple((x + by, y) for x, y in track)


class Waived(made.Case):
    def waive(self, files, *names, words=(), program=made.STAND_IN):
        """Signs for findings, and writes that beside the board."""
        self.board(files)
        if os.path.exists(self.path("board/boardnet.json")):
            os.remove(self.path("board/boardnet.json"))
        asked = [word for name in names for word in ("--waive", f"{name}=signed by the customer")]
        status, out, notes = self.show(
            "board", *words, *asked, "--author", "Ann", "--write-declarations", "board/boardnet.json", program=program
        )
        return status, out, notes

    def after(self, files, *words, program=made.STAND_IN):
        """Of a later revision: the status, how many waivers count, how many are stale, and which findings are left."""
        for name in os.listdir(self.path("board")):
            if name != "boardnet.json":
                os.remove(self.path("board", name))
        self.board(files)
        status, out, notes = self.show("board", *words, "--json", "-", program=program)
        told = json.loads(out)["boards"][0]
        return status, len(told["waived"]), len(told["stale_waivers"]), [it["id"] for it in told["findings"]]

    def rows(self, rows, *words):
        for what, files, wanted in rows:
            with self.subTest(what):
                self.assertEqual(self.after(files, *words)[: len(wanted)], wanted)


class Gaps(Waived):
    def test_rows(self):
        for program in self.over_both():
            status, out, _ = self.waive(close(LOW, HIGH), "gap-0", words=("--gaps", "0.25"), program=program)
            self.assertEqual(
                (status, counted(out)),
                (
                    0,
                    "PASS board: copper and the netlist agree, but for what is signed for, with 1 waiver; 1 gap under 0.250 mm, waived",
                ),
            )
            self.assertIn("gap-0 of A and B, waived by Ann on ", out.splitlines()[1])
        (waiver,) = json.loads(self.read("board/boardnet.json"))["waivers"]
        self.assertEqual(
            (waiver["nets"], waiver["places"]), ([["A"], ["B"]], [{"x": 5, "y": 0.5, "layer": 1, "distance": 0.2}])
        )
        none = close(LOW)
        none["n.ipc"] = close(LOW, HIGH, names=("A", "A", "C", "C"))["n.ipc"]
        left = ["gap-0"]
        self.rows(
            [
                ("the same", close(LOW, HIGH), (0, 1, 0, [])),
                ("a little aside", close(moved(LOW, 0.3), moved(HIGH, 0.3)), (0, 1, 0, [])),
                ("wider", close(LOW, ((5, 4), (5, 0.72))), (0, 1, 0, [])),
                ("narrower", close(LOW, ((5, 4), (5, 0.69))), (1, 0, 1, left)),
                ("beyond the tolerance", close(moved(LOW, 1.1), moved(HIGH, 1.1)), (1, 0, 1, left)),
                ("another net", close(LOW, HIGH, names=("A", "A", "C", "C")), (1, 0, 1, left)),
                ("a further name", close(LOW, HIGH, names=("A", "A", "B", "C")), (1, 0)),
                ("elsewhere too", close(LOW, HIGH, *FAR), (1, 0, 1, left)),
                ("elsewhere too, but wider", close(LOW, HIGH, FAR[0], ((15, 4), (15, 0.74))), (1, 0, 1, left)),
                ("elsewhere as wide as asked", close(LOW, HIGH, FAR[0], ((15, 4), (15, 0.75))), (0, 1, 0, [])),
                ("none any more", none, (0, 0, 1, [])),
            ],
            "--gaps",
            "0.25",
        )
        self.assertEqual(self.after(close(LOW, HIGH), "--gaps", "0.5")[:3], (0, 1, 0))
        self.assertEqual(self.after(close(LOW, HIGH), "--gaps", "0.6")[:3], (1, 0, 1))

    def test_another_layer(self):
        """The same gap on the other side is not signed for."""
        names = ("top.gbr", "bottom.gbr")
        # Holes carry both nets to the bottom.
        holes = {"p.drl": made.drill((0.0, 0.0), (0.0, 1.5))}
        low, high = ((0, 0), (5, 0), (5, 0.3)), ((0, 1.5), (5, 1.5), (5, 0.7))
        top, bottom = ({**close(low, high, files=names, on=name), **holes} for name in names)
        words = ("--gaps", "0.25")
        self.assertEqual(self.waive(top, "gap-0", words=words)[0], 0)
        self.assertEqual(self.after(top, *words), (0, 1, 0, []))
        self.assertEqual(self.after(bottom, *words), (1, 0, 1, ["gap-0"]))

    def test_along(self):
        """Tracks that run side by side are signed for along all of their way, and no farther."""
        low, high = ((5, -3), (5, 0.3), (9, 0.3)), ((5, 4), (5, 0.7), (9, 0.7))
        words = ("--gaps", "0.25")
        self.assertEqual(self.waive(close(low, high), "gap-0", words=words)[0], 0)
        self.assertGreater(len(json.loads(self.read("board/boardnet.json"))["waivers"][0]["places"]), 2)
        self.rows(
            [
                ("the same", close(low, high), (0, 1, 0, [])),
                ("in two parts", close((*low[:2], (7, 0.3), low[2]), high), (0, 1, 0, [])),
                ("longer", close((*low[:2], (12, 0.3)), (*high[:2], (12, 0.7))), (1, 0, 1, ["gap-0"])),
                ("narrower in one place", close((*low[:2], (7, 0.3), (7, 0.35)), high), (1, 0, 1, ["gap-0"])),
            ],
            *words,
        )

    def test_between_bounds(self):
        """The upper bound, whose copper comes nearest, is looked at."""
        bent = ["G75*", *draw(11, (40, 20), (41, 20))[:2], "G03X41000000Y20000000I500000J0D01*", "G01*"]
        wavy = lambda files: {**files, "top.gbr": files["top.gbr"].replace("M02*", "\n".join([*bent, "M02*"]))}
        words = ("--gaps", "0.25")
        status, out, notes = self.waive(wavy(close(LOW, HIGH)), "gap-0", words=words)
        is_between = "Of the netlist certain: the same for the least and the most " in out
        self.assertEqual((status, ", with 1 waiver; " in out, is_between), (0, True, True), (out, notes))
        self.assertEqual(self.after(wavy(close(LOW, HIGH)), *words), (0, 1, 0, []))
        self.assertEqual(self.after(wavy(close(LOW, HIGH, *FAR)), *words), (1, 0, 1, ["gap-0"]))

    def test_not_looked_for(self):
        """Without the option the waiver is neither of a finding nor stale, and is written again."""
        self.waive(close(LOW, HIGH), "gap-0", words=("--gaps", "0.25"))
        status, out, _ = self.show("board", "--write-declarations", "again.json")
        self.assertEqual((status, counted(out)), (0, "PASS board: copper and the netlist agree"))
        self.assertIn("1 waiver of what was not looked for: the gap of A and B", out)
        self.assertEqual(self.read("again.json"), self.read("board/boardnet.json"))

    def test_forms(self):
        """JUnit has it as skipped, SARIF as suppressed; the tester's netlist has both nets as neighbours still."""
        self.waive(close(LOW, HIGH), "gap-0", words=("--gaps", "0.25"))
        words = ["--gaps", "0.25", "--junit", "j.xml", "--sarif", "s.json", "--page", "p.html", "--ipc", "t.ipc"]
        status, out, _ = self.show("board", *words, "--record", "r.json")
        self.assertEqual(status, 0, out)
        self.assertEqual((self.read("j.xml").count("<skipped message="), self.read("j.xml").count("<failure")), (3, 0))
        (result,) = json.loads(self.read("s.json"))["runs"][0]["results"]
        self.assertEqual((result["ruleId"], result["suppressions"][0]["status"]), ("gap", "accepted"))
        self.assertIn("signed by the customer", self.read("p.html"))
        self.assertIn("\n379", self.read("t.ipc"))
        self.assertEqual(self.show("board", "--gaps", "0.25", "--verify", "r.json")[0], 0)

    def test_too_many(self):
        its = [Close(1, (k * 2 * WITHIN, 0, 1)) for k in range(MOST_PLACES + 1)]
        self.assertEqual(len(covering(its[:-1], WITHIN) or ()), MOST_PLACES)
        self.assertIsNone(covering(its, WITHIN))


def waist(*places, half=0.2, names=("A", "A"), end=20):
    """Copper of 2 mm from pad to pad, of 0.4 mm at some places."""
    upper = [(x + by, y) for x in places for by, y in ((-0.5, 1), (0, half), (0.5, 1))]
    lower = [(x, -y) for x, y in reversed(upper)]
    copper = region((-1, -1), (-1, 1), *upper, (end + 1, 1), (end + 1, -1), *lower)
    points = [record(name, f"J{k}.1", x, 0) for k, (name, x) in enumerate(zip(names, (0, end)), 1)]
    return {"m.json": manifest(), "top.gbr": gerber(*copper), "n.ipc": netlist(*points)}


class Necks(Waived):
    WORDS = ("--necks", "0.6")

    def test_rows(self):
        for program in self.over_both():
            status, out, _ = self.waive(waist(5), "neck-0", words=self.WORDS, program=program)
            self.assertEqual(
                (status, counted(out)),
                (
                    0,
                    "PASS board: copper and the netlist agree, but for what is signed for, with 1 waiver; 1 neck under 0.600 mm, waived",
                ),
            )
        (waiver,) = json.loads(self.read("board/boardnet.json"))["waivers"]
        self.assertEqual((len(waiver["places"]), waiver["parts"]), (1, 2))
        self.assertTrue(0.39 <= waiver["width"] <= 0.4, waiver)
        other = waist(5)
        other["n.ipc"] = netlist(record("A", "J1.1", 0, 0), record("A", "J3.1", 20, 0))
        self.rows(
            [
                ("the same", waist(5), (0, 1, 0, [])),
                ("a little aside", waist(5.3), (0, 1, 0, [])),
                ("wider", waist(5, half=0.25), (0, 1, 0, [])),
                ("narrower", waist(5, half=0.18), (1, 0, 1, ["neck-0"])),
                ("beyond the tolerance", waist(7), (1, 0, 1, ["neck-0"])),
                ("another net", waist(5, names=("C", "C")), (1, 0, 1, ["neck-0"])),
                ("elsewhere too", waist(5, 12), (1, 0, 1, ["neck-0"])),
                ("another pin at the larger part", other, (0, 1, 0, [])),
                ("none any more", waist(), (0, 0, 1, [])),
            ],
            *self.WORDS,
        )

    def test_a_way_back(self):
        """A further neck where the track comes back beside the place that was signed for is another one."""

        def board(link):
            copper = ["%ADD13C,0.5*%", *flash(10, (0, 0)), *draw(13, (0, 0), (9.5, 0)), *draw(11, (9, 0), (11, 0))]
            copper += [*draw(13, (10.5, 0), (20, 0)), *draw(link, (20, 0), (20, 1)), *draw(13, (20, 1), (5, 1))]
            points = netlist(record("A", "J1.1", 0, 0), record("A", "J1.2", 5, 1))
            return {"m.json": manifest(), "top.gbr": gerber(*copper), "n.ipc": points}

        words = ("--necks", "0.3")
        self.assertEqual(self.waive(board(13), "neck-0", words=words)[0], 0)
        self.assertEqual(self.after(board(13), *words)[:3], (0, 1, 0))
        self.assertEqual(self.after(board(11), *words)[:3], (1, 0, 1))

    def test_whole_track(self):
        """A track that is too narrow all along."""
        board = lambda *more: {
            "m.json": manifest(),
            "top.gbr": gerber(*flash(10, (0, 0), (6, 0)), *draw(11, (0, 0), (3, 1), (6, 0)), *more),
            "n.ipc": netlist(record("A", "J1.1", 0, 0), record("A", "J1.2", 6, 0)),
        }
        self.assertEqual(self.waive(board(), "neck-0", words=("--necks", "0.3"))[0], 0)
        self.assertEqual(self.after(board(), "--necks", "0.3"), (0, 1, 0, []))
        self.assertEqual(self.after(board(), "--necks", "0.25"), (0, 1, 0, []))

    def test_of_no_width(self):
        discs = lambda *xs: {
            "m.json": manifest(),
            "top.gbr": gerber(*flash(10, *((x, 0) for x in xs)), *draw(10, (1, 0), (10, 0))),
            "n.ipc": netlist(record("A", "J1.1", 0, 0), record("A", "J1.2", 10, 0)),
        }
        self.assertEqual(self.waive(discs(0, 1), "neck-0", words=("--necks", "0"))[0], 0)
        self.assertEqual(self.after(discs(0, 1), "--necks", "0"), (0, 1, 0, []))


class AsMade(Waived):
    TRACK = [*flash(10, (0, 0), (10, 0), (20, 0)), *draw(11, (0, 0), (20, 0))]

    def cut(self, *holes, pins=("J1.1", "J1.2", "J1.3"), name="A", **how):
        points = netlist(*(record(name, pin, 10 * k, 0) for k, pin in enumerate(pins)))
        return {
            "m.json": manifest(),
            "top.gbr": gerber(*self.TRACK),
            "n.ipc": points,
            "npth.drl": unplated(*(f"X{x}Y0.0" for x in holes), **how),
        }

    def test_cut(self):
        for program in self.over_both():
            status, out, _ = self.waive(self.cut(5.0), "cut-0", program=program)
            self.assertEqual(
                (status, counted(out)),
                (
                    0,
                    "PASS board: copper and the netlist agree, but for what is signed for, with 1 waiver; as it is made, 1 cut, waived",
                ),
            )
        self.rows(
            [
                ("the same", self.cut(5.0), (0, 1, 0, [])),
                ("a little aside", self.cut(5.3), (0, 1, 0, [])),
                ("larger", self.cut(5.0, size="4.0"), (0, 1, 0, [])),
                ("beyond the tolerance", self.cut(6.1), (1, 0, 1, ["cut-0"])),
                ("other pins", self.cut(15.0), (1, 0, 1, ["cut-0"])),
                ("more pins", self.cut(5.0, 15.0), (1, 0, 1, ["cut-0"])),
                ("another net", self.cut(5.0, name="B"), (1, 0, 1, ["cut-0"])),
                ("the pad's copper", self.cut(5.0, 0.0), (1, 0, 1)),
                ("none any more", self.cut(30.0), (0, 0, 1, [])),
            ]
        )
        self.assertEqual(self.after(self.cut(5.0), "--no-cuts")[:3], (0, 0, 0))

    def test_taken_copper(self):
        """The copper of a pin of its own that is taken away is another finding than the same pin cut off from others."""
        alone = lambda *more: {
            "m.json": manifest(),
            "top.gbr": gerber(*flash(10, (0, 0), (5, 5), (9, 9)), *(draw(11, (0, 0), (5, 5)) if more else [])),
            "n.ipc": netlist(record("A", "J1.1", 0, 0), record("B", "J2.1", 9, 9), *more),
            "npth.drl": unplated("X0.0Y0.0"),
        }
        self.assertEqual(self.waive(alone(), "cut-0")[0], 0)
        self.assertEqual(self.after(alone())[:3], (0, 1, 0))
        self.assertEqual(self.after(alone(record("A", "J1.2", 5, 5)))[:3], (1, 0, 1))

    def edged(self, x, name="A", left=-1):
        return {
            "m.json": manifest(),
            "top.gbr": gerber(*flash(10, (0, 0), (x, 0), (2, 2), (3, 3)), *draw(11, (0, 0), (x, 0))),
            "n.ipc": netlist(
                record(name, "J1.1", 0, 0),
                record(name, "J1.2", x, 0),
                record("B", "J2.1", 2, 2),
                record("C", "J2.2", 3, 3),
            ),
            "edge.gbr": profile((left, -1), (8, -1), (8, 8), (left, 8)),
        }

    def test_outside(self):
        self.assertEqual(self.waive(self.edged(10), "outside-0")[0], 0)
        self.rows(
            [
                ("the same", self.edged(10), (0, 1, 0, [])),
                ("elsewhere", self.edged(10.1), (1, 0, 1, ["outside-0"])),
                ("another net", self.edged(10, name="D"), (1, 0, 1, ["outside-0"])),
                ("another point too", self.edged(10, left=1), (1, 1, 0, ["outside-0"])),
                ("none any more", self.edged(7), (0, 0, 1, [])),
            ]
        )
