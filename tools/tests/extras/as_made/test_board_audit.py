"""Holes by the netlist, floating copper, and holes that are larger than their pads."""
import json

from tests.fixtures import made
from tests.fixtures.made import drill, flash, gerber, manifest, netlist, region

PADS = gerber(*flash(10, (0, 0), (10, 0)))
TRACK = gerber(*flash(10, (0, 0), (10, 0)), *made.draw(11, (0, 0), (10, 0)))


def hole(name, pin, x, y, diameter="0400", plating="P"):
    """A through record with its diameter in micrometres and its plating."""
    component, _, number = pin.partition(".")
    return f"317{name:<14}   {component:<6}-{number:<4} D{diameter}{plating}A00X{round(x * 1000):+07d}Y{round(y * 1000):+07d}"


def board(drills, *records, **more):
    return {
        "m.json": manifest(["top.gbr", "bot.gbr"], [("p.drl", 1, 2)]),
        "top.gbr": TRACK,
        "bot.gbr": PADS,
        "p.drl": drills,
        "n.ipc": netlist(*records),
        **more,
    }


BOTH = (hole("A", "J1.1", 0, 0), hole("A", "J1.2", 10, 0))


class BoardAudit(made.Case):
    def told(self, files, program=made.STAND_IN):
        self.board(files)
        status, out, _ = self.show("board", "--audit-board", "--json", "-", program=program)
        told = json.loads(out)["boards"][0]
        return status, told["line"], told["notes"]

    def test_fits(self):
        for program in self.over_both():
            status, line, notes = self.told(board(drill((0.0, 0.0), (10.0, 0.0)), *BOTH), program)
            self.assertEqual((status, line, notes), (0, "agrees; each record of a hole has it", []))

    def test_holes(self):
        one = drill((0.0, 0.0))
        rows = (
            # drills, records, what is told of the second hole
            (one, (BOTH[0], hole("A", "J1.2", 10, 0).replace("A00", "A01")), "no drill file has a hole there"),
            (
                drill((0.0, 0.0), (10.0, 0.0)),
                (BOTH[0], hole("A", "J1.2", 10, 0, "0500")),
                "it is to be 0.500 mm wide, and that of p.drl line 7 is 0.400 mm",
            ),
            (
                drill((0.0, 0.0), (10.0, 0.0)),
                (BOTH[0], hole("A", "J1.2", 10, 0, plating="U")),
                "it is to be not plated, and p.drl line 7 has one that is plated",
            ),
        )
        for drills, records, words in rows:
            status, line, notes = self.told(board(drills, *records))
            self.assertEqual((status, line), (1, "agrees; 1 record of holes that no drill file has so"), words)
            self.assertEqual(notes[0], f"the hole of J1 pin 2, of A, line 3 of the netlist: {words}")
        # A diameter that is one unit off is a rounding.
        self.assertEqual(
            self.told(board(drill((0.0, 0.0), (10.0, 0.0)), BOTH[0], hole("A", "J1.2", 10, 0, "0401")))[0], 0
        )

    def test_unplated_where_that_is_asked(self):
        npth = "\n".join(
            ("M48", "; #@! TF.FileFunction,NonPlated,1,2,NPTH", "METRIC", "T1C3.0", "%", "T1", "X20.0Y0.0", "M30", "")
        )
        alone = hole("N/C", "MH.1", 20, 0, "3000", "U").replace("A00", "A01")
        # The point of an unplated hole has no copper, so the board differs; its hole is there.
        status, line, notes = self.told(board(drill((0.0, 0.0), (10.0, 0.0)), *BOTH, alone, **{"npth.drl": npth}))
        self.assertEqual((status, "each record of a hole has it" in line), (1, True), line)

    def test_what_nothing_names(self):
        island = gerber(*flash(10, (0, 0), (10, 0), (5, 5)), *region((20, 0), (30, 0), (30, 10), (20, 10)))
        status, line, notes = self.told(board(drill((0.0, 0.0), (10.0, 0.0), (5.0, 5.0)), *BOTH, **{"bot.gbr": island}))
        self.assertEqual((status, line), (0, "agrees; each record of a hole has it"))
        self.assertEqual(
            notes,
            [
                "1 plated hole that no record names: p.drl line 8",
                "1 part of copper without a test point and a hole, the largest on bottom at 25.000, 5.000 mm",
            ],
        )

    def test_larger_than_the_pad(self):
        wide = drill((0.0, 0.0), (10.0, 0.0), size="1.2")
        _, _, notes = self.told(board(wide, hole("A", "J1.1", 0, 0, "1200"), hole("A", "J1.2", 10, 0, "1200")))
        self.assertEqual(len(notes), 1)
        self.assertTrue(notes[0].startswith("4 plated holes larger than the copper that it stands in"), notes)
        _, _, notes = self.told(
            board(
                drill((0.0, 0.0), (10.0, 0.0), size="1.0"),
                hole("A", "J1.1", 0, 0, "1000"),
                hole("A", "J1.2", 10, 0, "1000"),
            )
        )
        self.assertEqual(notes, [])
