"""Boards of which a yes says nothing, and pins without net that are joined."""
from tests.fixtures import made
from tests.fixtures.made import draw, flash, gerber, manifest, netlist, record

COPPER = [*flash(10, (0, 0), (10, 0), (0, 5)), *draw(11, (0, 0), (10, 0))]


class Unjudged(made.Case):
    def test_statuses(self):
        rows = [
            # records, status, what the line has
            ([], 12, "NOT JUDGED {}: the netlist has no test point"),
            (
                [record("N/C", "J1.1", 0, 0), record("N/C", "J1.2", 10, 0), record("", "J1.3", 0, 5)],
                12,
                "NOT JUDGED {}: all test points (3) are without net (N/C), ",
            ),
            ([record("A", "J1.1", 0, 0)], 12, "NOT JUDGED {}: there is one test point alone, of A, "),
            # Two points of one name may be parted, two of other names joined; so may one without net.
            (
                [record("A", "J1.1", 0, 0), record("A", "J1.2", 10, 0)],
                0,
                "PASS {}: copper and the netlist agree at all 2 ",
            ),
            (
                [record("A", "J1.1", 0, 0), record("B", "J1.3", 0, 5)],
                0,
                "PASS {}: copper and the netlist agree at all 2 ",
            ),
            (
                [record("A", "J1.1", 0, 0), record("N/C", "J1.3", 0, 5)],
                0,
                "PASS {}: copper and the netlist agree at all 2 ",
            ),
            # A point without copper is a fault all the same.
            ([record("N/C", "J1.1", 0, 0), record("N/C", "J1.2", 3, 3)], 1, "FAIL {}: 1 test point without copper. "),
        ]
        for program in self.over_both():
            for number, (records, status, line) in enumerate(rows):
                self.board({"m.json": manifest(), "top.gbr": COPPER, "n.ipc": netlist(*records)}, f"row{number}")
                told = self.show(f"row{number}", program=program)
                self.assertEqual((told[0], told[1].startswith(line.format(f"row{number}"))), (status, True), told)

    def test_own_names(self):
        """The same for the names of the copper."""
        lines = [
            "%TF.FileFunction,Copper,L1,Top*%",
            *(line for k, place in enumerate(((0, 0), (0, 5))) for line in (f"%TO.P,U1,{k}*%", *flash(10, place))),
        ]
        self.board({"top.gbr": gerber(*lines)})
        status, out, _ = self.show("board")
        self.assertEqual(
            (status, out.startswith("NOT JUDGED board: all test points (2) are without net (N/C)")), (12, True), out
        )

    def test_joined_pins(self):
        """Records without net on one net are told with their places; twice one pin is one pin."""
        others = [record("A", "J2.1", 0, 5)]
        note = (
            "records without net (N/C) are joined: J1 pin 1 (the one layer, 0.000, 0.000 mm) and J1 pin 2 (the one layer, 10.000, 0.000 mm). "
            "Each such pin should stand alone; a pad and its via may be two records\n"
        )
        for program in self.over_both():
            for other, is_told in (("J1.2", True), ("J1.1", False)):
                self.board(
                    {
                        "m.json": manifest(),
                        "top.gbr": COPPER,
                        "n.ipc": netlist(record("N/C", "J1.1", 0, 0), record("N/C", other, 10, 0), *others),
                    }
                )
                status, out, _ = self.show("board", program=program)
                self.assertEqual((status, note in out, "should stand alone" in out), (0, is_told, is_told), out)
