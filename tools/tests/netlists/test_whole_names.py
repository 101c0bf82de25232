"""Names that a netlist cuts and respells, told whole by the copper's own labels."""
import json
import os
import re
import unittest

from boardnet_show.formats import ipc356
from boardnet_show.netlists import whole_names
from tests.fixtures import made
from tests.fixtures.made import draw, flash, gerber, manifest, netlist, record

LONG, SHORT = "Net-(U102-CAP+)", "ET-(U102-CAP+)"


def pad(pin, net, *at):
    part, _, number = pin.partition(".")
    return [f"%TO.P,{part},{number}*%", f"%TO.N,{net}*%", *flash(10, *at), "%TD*%"]


class Rules(unittest.TestCase):
    def test_how_kicad_writes_names(self):
        rows = [
            (SHORT, LONG),
            ("GND", "gnd"),
            ("/SDA", "/sda"),
            ("A?B", "a b"),
            ("?5V", "\u00e45V"),
            ("_NAME_OF_A_NET", "a_long_name_of_a_net"),
            ("E_OF_A_NET#12", "a_long_name_of_a_net"),
            ("SHORT#1", "short"),
            ("a_long_name_of", "a_long_name_of_a_net"),
            ("ng_name_of_net", "a_long_name_of_net"),
        ]
        for short, whole in rows:
            self.assertTrue(whole_names.is_written_so(short, whole), (short, whole))
        for short, whole in (
            (SHORT, "Net-(U103-CAP+)"),
            ("GND", "GND_A"),
            ("GND#A", "GND"),
            ("GND#01", "GND"),
            ("GND#", "GND"),
            ("a_long_name", "a_long_name_of_a_net"),
            ("AME_OF_A_NET#1", "a_long_name_of_a_net"),
        ):
            self.assertFalse(whole_names.is_written_so(short, whole), (short, whole))

    def matched(self, names, labels):
        pins = {name: {tuple(pin.split(".")) for pin in its} for name, its in names.items()}
        return whole_names.matched(pins, {tuple(pin.split(".")): set(its) for pin, its in labels.items()})

    def test_matches(self):
        names = {SHORT: ["U1.1", "U2.1"], "GND": ["U1.2"], "VCC": ["U1.3"]}
        labels = {"U1.1": [LONG], "U2.1": [LONG], "U1.2": ["gnd"], "U1.3": ["VCC"]}
        self.assertEqual(self.matched(names, labels), {SHORT: LONG, "GND": "gnd"})
        self.assertEqual(self.matched(names, {"U1.1": [LONG]}), {SHORT: LONG})

    def test_what_stays(self):
        """Another label on a pin, one label on pins of two names, a label that is a name of the netlist, a pad of two nets, N/C, two names that are exchanged."""
        names, other = {SHORT: ["U1.1", "U2.1"], "GND": ["U1.2"]}, "NET-(U102-CAP+)"
        for more, labels in (
            ({}, {"U1.1": [LONG], "U2.1": [other]}),
            ({}, {"U1.1": [LONG], "U2.1": [LONG], "U1.2": [LONG]}),
            ({LONG: ["U9.1"]}, {"U1.1": [LONG], "U2.1": [LONG]}),
            ({}, {"U1.1": [LONG, "A"], "U2.1": [LONG]}),
            ({"N/C": ["U3.1"]}, {"U3.1": ["n/c"]}),
            ({}, {"U1.1": ["gnd"], "U2.1": ["gnd"], "U1.2": [LONG]}),
            ({}, {}),
        ):
            self.assertEqual(self.matched({**names, **more}, labels), {}, labels)

    def test_pins_that_are_cut(self):
        """Two parts that are one in their columns say nothing where their labels differ."""
        names = {SHORT: ["CONN_U.1"]}
        self.assertEqual(self.matched(names, {"CONN_USB_A.1": [LONG]}), {SHORT: LONG})
        self.assertEqual(self.matched(names, {"CONN_USB_A.1": [LONG], "CONN_USB_B.1": ["X"]}), {})

    def test_labels(self):
        """A label is that in force at the object: not that of a pin whose net comes later; of a region where it ends; in comments and by numbers too."""
        text = gerber(
            *pad("U1.1", "A", (0, 0)),
            "%TO.P,U1,2*%",
            "%TO.N,B*%",
            *flash(10, (1, 0)),
            "%TO.P,U1,3*%",
            "%TO.N,C*%",
            *flash(10, (2, 0), (3, 0)),
            "%TD.N*%",
            *flash(10, (4, 0)),
            "%TO.P,U1,4*%",
            "%TO.N,\\u00E4,E*%",
            *made.region((5, 0), (6, 0), (6, 1)),
            "%TD*%",
            "G04 #@! TO.P,U1,5*",
            "G04 #@! TO.N,F*",
            *flash(10, (9, 0)),
        )
        found = whole_names.Labels(text.encode()).nets
        self.assertEqual(
            found,
            {
                ("U1", "1"): {"A"},
                ("U1", "2"): {"B"},
                ("U1", "3"): {"C"},
                ("U1", "4"): {"\\u00E4", "E"},
                ("U1", "5"): {"F"},
            },
        )


class Told(made.Case):
    TOP = gerber(
        *pad("U1.1", LONG, (0, 0)),
        *pad("U2.1", LONG, (5, 0)),
        *pad("U1.2", "gnd", (9, 0)),
        *pad("U2.2", "gnd", (9, 5)),
        *draw(11, (9, 0), (9, 5)),
    )
    POINTS = netlist(
        record(SHORT, "U1.1", 0, 0),
        record(SHORT, "U2.1", 5, 0),
        record("GND", "U1.2", 9, 0),
        record("GND", "U2.2", 9, 5),
    )

    def files(self, **more):
        return {"m.json": manifest(), "top.gbr": self.TOP, "n.ipc": self.POINTS, **more}

    def test_every_form(self):
        for program in self.over_both():
            self.board(self.files())
            status, out, _ = self.show(
                "board", "--json", "f.json", "--junit", "f.xml", "--page", "f.html", program=program
            )
            self.assertEqual(status, 1)
            self.assertEqual(out.splitlines()[1], LONG)
            self.assertIn(f"{LONG} is in 2 parts, here U2 pin 1, there U1 pin 1.\n", out)
            self.assertIn(f"      The netlist has {SHORT} for {LONG}.\n", out)
            (found,) = json.loads(self.read("f.json"))["boards"][0]["findings"]
            self.assertEqual(
                (found["names"], found["points"][0]["name"], found["hints"][-1]),
                ([LONG], LONG, f"The netlist has {SHORT} for {LONG}."),
            )
            for name in ("f.xml", "f.html"):
                self.assertIn(LONG, self.read(name))

    def test_gaps(self):
        self.board(
            self.files(**{"top.gbr": self.TOP.replace("M02*", "\n".join([*draw(11, (5, 0), (8.3, 0)), "M02*"]))})
        )
        _, out, _ = self.show("board", "--gaps", "0.2")
        self.assertIn(f"gap-0: {LONG} and gnd are", out)
        self.assertIn(f"The netlist has {SHORT} for {LONG}.", out)

    def test_ties_take_either(self):
        joined = self.TOP.replace("M02*", "\n".join([*draw(11, (0, 0), (5, 0), (9, 0)), "M02*"]))
        self.board(self.files(**{"top.gbr": joined}))
        self.assertEqual(self.show("board")[0], 1)
        for tie in (f"{SHORT}=GND", f"{LONG}=GND", f"{LONG}=gnd", f"gnd={SHORT}"):
            status, out, _ = self.show("board", "--tie", tie)
            self.assertEqual(
                (status, bool(re.match(r"PASS board: .* points, with 1 declared tie\. ", out))), (0, True), (tie, out)
            )
        self.board({**self.files(**{"top.gbr": joined}), "ties.txt": f"{SHORT}=GND\n"})
        self.assertEqual(self.show("board")[0], 0)
        self.assertEqual(self.show("board", "--tie", f"{SHORT}=VCC")[0], 1)

    def waived(self, name, *words):
        """The status with a waiver of the open, by a name."""
        signed = {"reason": "x", "author": "Ann", "date": "2026-12-01"}
        waiver = {"kind": "open", "names": [name], "pins": [["U2-1"]], **signed}
        self.write("board/boardnet.json", json.dumps({"boardnet": 1, "waivers": [waiver]}))
        return self.show("board", *words)[0]

    def test_waivers_take_either(self):
        self.board(self.files())
        self.assertEqual([self.waived(name) for name in (SHORT, LONG)], [0, 0])
        self.assertEqual([self.waived(name) for name in ("gnd", "GND", LONG.upper(), SHORT[1:])], [1] * 4)
        gap = self.TOP.replace("M02*", "\n".join([*draw(11, (0, 0), (5, 0), (8.3, 0)), "M02*"]))
        self.board(self.files(**{"top.gbr": gap}))
        signed = (
            "--gaps",
            "0.2",
            "--waive",
            "gap-0=x",
            "--author",
            "Ann",
            "--write-declarations",
            "board/boardnet.json",
        )
        self.assertEqual(self.show("board", *signed)[0], 0)
        text = self.read("board/boardnet.json")
        for name, status in ((LONG, 0), (SHORT, 0), ("VCC", 1)):
            self.write("board/boardnet.json", text.replace(LONG, name))
            self.assertEqual(self.show("board", "--gaps", "0.2")[0], status, name)

    def test_a_short_name_of_two(self):
        """A name that stands for two whole ones stands for neither: what names one of them is of no net."""
        two = self.TOP.replace(f"%TO.P,U2,1*%\n%TO.N,{LONG}*%", f"%TO.P,U2,1*%\n%TO.N,{LONG.upper()}*%")
        for program in self.over_both():
            self.board(self.files(**{"top.gbr": two}))
            self.assertEqual(self.show("board", program=program)[0], 1)
        self.assertEqual([self.waived(name) for name in (LONG, LONG.upper(), SHORT)], [1, 1, 0])
        os.remove(self.path("board/boardnet.json"))
        joined = two.replace("M02*", "\n".join([*draw(11, (0, 0), (5, 0), (9, 0)), "M02*"]))
        self.board(self.files(**{"top.gbr": joined}))
        for name, status in ((LONG, 1), (LONG.upper(), 1), (SHORT, 0)):
            self.assertEqual(self.show("board", "--tie", f"{name}=GND")[0], status, name)

    def test_a_tester_has_them(self):
        self.board(self.files(**{"top.gbr": self.TOP.replace("M02*", "\n".join([*draw(11, (0, 0), (5, 0)), "M02*"]))}))
        self.assertEqual(self.show("board", "--ipc", "o.ipc")[0], 0)
        data = self.read("o.ipc").encode()
        self.assertEqual({ipc356.aliases(data).get(it.name, it.name) for it in ipc356.records(data)}, {LONG, "gnd"})

    def test_what_stays_short(self):
        """Labels that contradict the netlist, or that no pin has; a netlist whose names are not cut is not compared."""
        other = self.TOP.replace(f"%TO.P,U2,1*%\n%TO.N,{LONG}*%", "%TO.P,U2,1*%\n%TO.N,VCC*%")
        for files in (
            self.files(**{"top.gbr": other}),
            self.files(**{"top.gbr": self.TOP.replace("TO.P", "TO.C")}),
            self.files(**{"n.ipc": self.POINTS.replace(SHORT, "CAP".ljust(14))}),
        ):
            self.board(files)
            status, out, _ = self.show("board")
            self.assertEqual((status, "The netlist has" in out, LONG in out), (1, False, False), out)

    def test_names_of_kicad(self):
        """A netlist of KiCad has capitals, also where no name is cut."""
        points, top = self.POINTS.replace(SHORT, "CAP".ljust(14)), self.TOP.replace(LONG, "Cap")
        for head, is_whole in (("P  CODE 00\nP  arrayDim   N\n", True), ("P  CODE 00\n", False)):
            self.board(self.files(**{"n.ipc": head + points, "top.gbr": top}))
            status, out, _ = self.show("board")
            self.assertEqual((status, "The netlist has CAP for Cap." in out), (1, is_whole), out)

    def test_the_answer_is_the_same(self):
        """Names change words alone: the report and its status are those of the netlist."""
        self.board(self.files())
        self.show("board", "--keep", "kept")
        self.assertIn(f"name 0 {SHORT}\n", self.read("kept/report.txt"))
