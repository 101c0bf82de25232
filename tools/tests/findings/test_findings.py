"""Made boards with a known fault at a known place: what is told of it, over the stand-in and over the built program."""
import json

from tests.fixtures import made
from tests.fixtures.made import draw, drill, flash, gerber, label, manifest, netlist, record, region

PADS = flash(10, (0, 0), (10, 0), (0, 5), (10, 5))
A_AND_B = [record("A", "J1.1", 0, 0), record("A", "J2.1", 10, 0), record("B", "J1.2", 0, 5), record("B", "J2.2", 10, 5)]
TRACKS = draw(11, (0, 0), (5, 0), (10, 0)) + draw(11, (0, 5), (5, 5), (10, 5))


def one_layer(*lines, points=A_AND_B):
    return {"m.json": manifest(), "top.gbr": gerber(*lines), "n.ipc": netlist(*points)}


class Faults(made.Case):
    def findings(self, files):
        """What is told over each program, which must be the same: status and the board's JSON."""
        told = []
        for program in self.over_both():
            folder = self.board(files, f"board{len(told)}")
            status, out, notes = self.show("--json", "-", folder, program=program)
            self.assertEqual(notes, "")
            board = json.loads(out)["boards"][0]
            board.pop("path")
            told.append((status, board))
        self.assertTrue(all(it == told[0] for it in told))
        return told[0]

    def one(self, files, kind):
        """The only finding of a board."""
        status, board = self.findings(files)
        self.assertEqual((status, [it["id"] for it in board["findings"]]), (1, [f"{kind}-0"]))
        return board["findings"][0]

    def place(self, told):
        return told["x"], told["y"], told["layer"]

    def test_agrees(self):
        status, board = self.findings(one_layer(*PADS, *TRACKS))
        self.assertEqual((status, board["findings"], board["line"], board["audit"]), (0, [], "agrees", "audit true"))

    def test_open_track(self):
        broken = draw(11, (0, 0), (4, 0)) + draw(11, (6, 0), (10, 0)) + draw(11, (0, 5), (10, 5))
        it = self.one(one_layer(*PADS, *broken), "open")
        self.assertEqual((it["names"], self.place(it["gap"]), it["gap"]["distance"]), (["A"], (5, 0, 1), 1.8))
        self.assertEqual(
            [(p["component"], p["pin"], p["line"]) for p in it["points"]], [("J2", "1", 3), ("J1", "1", 2)]
        )
        self.assertEqual(
            [(part["count"], part["points"][0]["component"]) for part in it["parts"]], [(1, "J2"), (1, "J1")]
        )
        self.assertIn("J2 pin 1 (the one layer, 10.000, 0.000 mm) is not joined to J1 pin 1", it["words"])
        self.assertEqual(
            it["hints"],
            ["Suggestion: their copper comes nearest, 1.800 mm, on the one layer (top.gbr) at 5.000, 0.000 mm."],
        )

    def test_lost_barrel(self):
        files = {
            "m.json": manifest(["top.gbr", "bot.gbr"], [("p.drl", 1, 2)]),
            "top.gbr": gerber(*flash(10, (0, 0), (5, 0), (20, 0)), *draw(11, (0, 0), (5, 0))),
            "bot.gbr": gerber(*flash(10, (5, 0), (9, 0), (20, 0)), *draw(11, (5, 0), (9, 0))),
            "p.drl": drill((20.0, 0.0)),
            "n.ipc": netlist(
                record("A", "J1.1", 0, 0), record("A", "J2.1", 9, 0, "02"), record("B", "J3.1", 20, 0, "00")
            ),
        }
        it = self.one(files, "open")
        self.assertEqual((self.place(it["gap"]), it["gap"]["distance"]), ((5, 0, 1), 0))
        self.assertIn(
            "a hole is missing where both parts have copper, on top (top.gbr) at 5.000, 0.000 mm and on bottom",
            it["hints"][0],
        )
        whole = {**files, "p.drl": drill((20.0, 0.0), (5.0, 0.0))}
        self.assertEqual(self.findings(whole)[0], 0)

    def test_bridge_between_pads(self):
        it = self.one(one_layer(*PADS, *TRACKS, *draw(11, (0, 0), (0, 5))), "short")
        (meet,) = it["meets"]
        self.assertEqual(
            (meet["names"], self.place(meet), [p["command"] for p in meet["between"]]), (["A", "B"], (0, 2.5, 1), [21])
        )
        self.assertEqual([p["of"] for p in meet["path"]], ["A", None, "B"])
        self.assertIn("top.gbr command 21 could belong to either", it["hints"][0])
        self.assertEqual(it["labelled"], False)

    def test_track_that_touches_a_pad(self):
        # A's second stroke passes B's pad at (5, 2.5): the place is there, and not at an end of the path.
        pads = PADS + flash(10, (5, 2))
        files = one_layer(
            *pads,
            *draw(11, (0, 0), (4, 1.5), (6, 1.45), (10, 0)),
            *draw(11, (0, 5), (5, 2), (10, 5)),
            points=A_AND_B + [record("B", "J3.1", 5, 2)],
        )
        it = self.one(files, "short")
        self.assertEqual([sorted(p["command"] for p in meet["touch"]) for meet in it["meets"]], [[12, 16]])
        x, y, _ = self.place(it["meets"][0])
        self.assertTrue(abs(x - 5) < 0.6 and abs(y - 1.5) < 0.3, (x, y))

    def test_copper_that_touches_in_several_places(self):
        # A's track runs along B's three strokes and touches each; one cut of three touches parts them.
        along = draw(11, (0, 0), (0, 4.85), (10, 4.85)) + draw(11, (10, 0), (0, 0))
        strokes = draw(11, (0, 6), (3, 5), (6, 5), (9, 5))
        points = [
            record("A", "J1.1", 10, 0),
            record("A", "J2.1", 10, 4.85),
            record("B", "J1.2", 0, 6),
            record("B", "J2.2", 9, 5),
        ]
        it = self.one(
            one_layer(*flash(10, (10, 0)), *flash(11, (10, 4.85), (0, 6), (9, 5)), *along, *strokes, points=points),
            "short",
        )
        self.assertEqual([meet["names"] for meet in it["meets"]], [["A", "B"]])
        touched = {p["command"] for p in it["meets"][0]["touch"]}
        self.assertTrue(touched & {14, 15} and touched & {10, 11, 21, 22, 23}, touched)

    def test_pour_that_touches_a_pad(self):
        pour = region((-2, -2), (8, -2), (8, 2), (-2, 2))
        pads = flash(10, (0, 0), (4, 0), (8.3, 0), (14, 0))
        points = [
            record("GND", "J1.1", 0, 0),
            record("GND", "J1.2", 4, 0),
            record("VCC", "U1.1", 8.3, 0),
            record("VCC", "U1.2", 14, 0),
        ]
        it = self.one(one_layer(*pads, *pour, *draw(11, (8.3, 0), (14, 0)), points=points), "short")
        (meet,) = it["meets"]
        self.assertEqual(([p["command"] for p in meet["touch"]], meet["between"]), ([17, 9], []))
        x, y, _ = self.place(meet)
        self.assertTrue(7.8 <= x <= 8 and abs(y) <= 0.5)
        self.assertIn(
            "top.gbr command 17 of GND touches top.gbr command 9 of VCC on the one layer (top.gbr) at 8.000, ",
            it["hints"][0],
        )

    def test_three_names(self):
        bridges = draw(11, (0, 0), (0, 5)) + draw(11, (0, 5), (0, 10))
        points = [record("A", "J1.1", 0, 0), record("B", "J1.2", 0, 5), record("C", "J1.3", 0, 10)]
        it = self.one(one_layer(*flash(10, (0, 0), (0, 5), (0, 10)), *bridges, points=points), "short")
        self.assertEqual(
            [(meet["names"], self.place(meet)) for meet in it["meets"]],
            [(["A", "B"], (0, 2.5, 1)), (["B", "C"], (0, 7.5, 1))],
        )

    def test_two_names_on_one_pad(self):
        points = [record("A", "J1.1", 0, 0), record("B", "J1.2", 0.1, 0)]
        it = self.one(one_layer(*flash(10, (0, 0)), points=points), "short")
        self.assertEqual(
            [(meet["names"], self.place(meet), len(meet["between"])) for meet in it["meets"]],
            [(["A", "B"], (0, 0, 1), 1)],
        )
        # Other copper of the net comes first in the file, and does not touch the pad.
        tracks = [*flash(10, (10, 0)), *draw(11, (10, 0), (5, 0), (0, 0))]
        points = [record("A", "J1.1", -0.4, 0.1), record("B", "J1.2", -0.4, -0.1)]
        it = self.one(one_layer(*tracks, *flash(10, (0, 0)), points=points), "short")
        self.assertEqual(
            [(meet["names"], self.place(meet), len(meet["between"])) for meet in it["meets"]],
            [(["A", "B"], (0, 0, 1), 4)],
        )

    def test_labels_say_where(self):
        # The bridge is labelled as B's: so the fault is where it touches A's pad.
        lines = [
            *label("A"),
            *flash(10, (0, 0), (10, 0)),
            *draw(11, (0, 0), (10, 0)),
            *label("B"),
            *flash(10, (0, 5), (10, 5)),
            *draw(11, (0, 5), (10, 5)),
            *draw(11, (10, 5), (10, 0.3)),
            "%TD*%",
        ]
        it = self.one(one_layer(*lines), "short")
        (meet,) = it["meets"]
        self.assertEqual(
            (it["labelled"], [p["label"] for p in meet["touch"]], self.place(meet)[:2]), (True, ["A", "B"], (10, 0.3))
        )
        self.assertTrue(it["hints"][0].startswith("By the files' labels: "), it["hints"])

    def test_labels_that_name_one_net(self):
        lines = [*label("ALL"), *PADS, *TRACKS, *draw(11, (0, 0), (0, 5)), "%TD*%"]
        it = self.one(one_layer(*lines), "short")
        self.assertIn("All its labelled copper says ALL: the netlist's names differ from the files' own.", it["hints"])
        self.assertEqual(self.place(it["meets"][0])[:2], (0, 2.5))

    def test_missing(self):
        it = self.one(one_layer(*PADS, *TRACKS, points=[*A_AND_B, record("A", "R1.1", -3, 1.25)]), "missing")
        self.assertEqual(
            it["words"], "no copper of top.gbr lies under R1 pin 1 (the one layer, -3.000, 1.250 mm), of A."
        )
        self.assertEqual((self.place(it["points"][0]), it["points"][0]["net"]), ((-3, 1.25, 1), None))

    def test_moved_netlist(self):
        moved = [record(name, f"J1.{k}", 20 + 5 * k, 40) for k, name in enumerate("AABB")]
        status, board = self.findings(one_layer(*PADS, *TRACKS, points=moved))
        self.assertEqual((status, board["missing"], len(board["findings"])), (1, 4, 4))
        self.assertTrue(board["flood"].startswith("4 of 4 test points lie beside the copper."))
