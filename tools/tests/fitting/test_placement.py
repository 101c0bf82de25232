"""Drills and copper that count from elsewhere, access codes that cannot be meant, and that no suggestion stands beside what explains them."""
import json
import unittest

from boardnet_show.fitting import access_codes, drill_placement, placement
from tests.fixtures import made
from tests.fixtures.hinted import Case, files_of
from tests.fixtures.made import draw, flash, gerber, record

FORMS = [form for _, form in placement.FORMS]
BY = (35_000_000, -22_500_000)
KICAD = "; DRILL file {KiCad 9.0.2} date 2026-01-01T00:00:00\n"


def with_drills(files, turn, by, names=("p.drl",)):
    """The package with drill files through a form and moved by u."""
    return {
        **files,
        **{name: drill_placement.drill_moved(files[name].encode(), FORMS[turn], by).decode() for name in names},
    }


def two_drill_files(pads=15):
    """The holes in two files, every third in the second."""
    files = files_of(pads)
    lines = files["p.drl"].splitlines()
    holes = [line for line in lines if line.startswith("X")]
    for name, its in (("p.drl", [hole for k, hole in enumerate(holes) if k % 3]), ("q.drl", holes[::3])):
        files[name] = "\n".join([*lines[:5], *its, "M30", ""])
    told = json.loads(files["m.json"])
    told["drills"].append({**told["drills"][0], "file": "q.drl"})
    return {**files, "m.json": json.dumps(told)}


class Drills(Case):
    def test_moved(self):
        for program in self.over_both():
            status, words, found = self.told(with_drills(files_of(), 0, BY), program)
            self.assertEqual((status, words), (1, ["with the drills moved by (-3.500, 2.250) mm, the board passes"]))
            self.assertEqual((found[0].kind, found[0].answer.status, found[0].explains), ("drills", 0, True))

    def test_mirrored(self):
        for turn, words in ((2, "mirrored upside down"), (1, "mirrored left to right, moved by (3.500, 2.250) mm")):
            status, told, _ = self.told(with_drills(files_of(), turn, BY if turn == 1 else (0, 0)))
            self.assertEqual((status, told), (1, [f"with the drills {words}, the board passes"]))

    def test_setting(self):
        """The setting of the tool that wrote the drill file; of another tool none is known."""
        for head, kind, turn, word in (
            (KICAD, "moved", 0, "(KiCad: Generate Drill Files, Drill origin, "),
            (KICAD, "mirrored", 2, "(KiCad: Generate Drill Files, Mirror Y axis off)"),
            ("; made by hand\n", "moved", 0, ""),
        ):
            files = with_drills(files_of(), turn, BY if turn == 0 else (0, 0))
            words = self.told({**files, "p.drl": files["p.drl"].replace("METRIC", head + "METRIC")})[1]
            self.assertEqual(
                (len(words), kind in words[0], word in words[0], "KiCad" in words[0]),
                (1, True, True, bool(word)),
                words,
            )

    def test_one_of_two_files(self):
        """The one that is moved is named, and the other one stays."""
        for program in self.over_both():
            for name in ("p.drl", "q.drl"):
                words = self.told(with_drills(two_drill_files(), 0, BY, [name]), program)[1]
                self.assertEqual(words, [f"with the drill file {name} moved by (-3.500, 2.250) mm, the board passes"])

    def test_two_files(self):
        """Both by the same, and each by its own."""
        files = two_drill_files(24)
        self.assertEqual(
            self.told(with_drills(files, 0, BY, ["p.drl", "q.drl"]))[1],
            ["with the drills moved by (-3.500, 2.250) mm, the board passes"],
        )
        words = self.told(with_drills(with_drills(files, 0, BY, ["p.drl"]), 0, (-70_000_000, 0), ["q.drl"]))[1]
        self.assertEqual(len(words), 2, words)
        self.assertTrue(words[1].startswith("besides, with the ") and words[1].endswith(" mm, the board passes"), words)

    def test_lost_holes(self):
        """Holes that are missing are no holes that are moved."""
        files = files_of()
        lines = files["p.drl"].splitlines()
        files["p.drl"] = "\n".join(lines[:8] + ["M30", ""])
        for program in self.over_both():
            status, words, _ = self.told(files, program)
            self.assertEqual((status, words), (1, []))

    def test_copper(self):
        """Drills and netlist fit each other, and the copper lies elsewhere."""
        for program in self.over_both():
            for turn, by, words in (
                (0, (3500, -2250), "moved by (-3.500, 2.250) mm"),
                (2, (0, 0), "mirrored upside down"),
            ):
                files = with_drills(files_of(), turn, tuple(v * 10_000 for v in by))
                files["n.ipc"] = placement.moved(files["n.ipc"], FORMS[turn], by)
                # The netlist is moved with the drills, so the copper would be moved as they were.
                told = words.replace("-3.500, 2.250", "3.500, -2.250")
                self.assertEqual(self.told(files, program)[:2], (1, [f"with the copper {told}, the board passes"]))

    def test_all_three(self):
        """Netlist, drills and copper each from an origin of its own."""
        files = with_drills(files_of(), 0, BY)
        files["n.ipc"] = placement.moved(files["n.ipc"], FORMS[0], (12345, -678))
        words = self.told(files)[1]
        self.assertEqual(
            [word.split(" moved by")[0] for word in words], ["with the netlist", "besides, with the drills"], words
        )
        self.assertTrue(words[1].endswith("the board passes"))

    def test_no_suggestion(self):
        """A hint that explains most findings stands alone, also beside a track that is lost; the lost track alone has its suggestion."""
        files = files_of()
        tracks = [line for line in files["a.gbr"].splitlines(True) if line.endswith("D01*\n")]
        cut = {**files, "a.gbr": files["a.gbr"].replace(tracks[3], "")}
        for number, (package, is_hinted) in enumerate(
            ((with_drills(files, 0, BY), True), (with_drills(cut, 0, BY), True), (cut, False))
        ):
            for name, text in package.items():
                self.write(f"row{number}/{name}", text)
            status, out, _ = self.show(f"row{number}", "--all", "--json", "b.json")
            self.assertEqual(
                (status, "hint: with the drills moved by" in out, "Suggestion" in out),
                (1, is_hinted, not is_hinted),
                out,
            )
            gaps = [it for it in json.loads(self.read("b.json"))["boards"][0]["findings"] if "gap" in it]
            self.assertEqual(bool(gaps), not is_hinted)

    def test_a_slot_and_inches(self):
        text = b"M48\nINCH\nT1C0.0100\n%\nT1\nX1.0Y0.5\nY0.25\nG00X0.0Y0.0\nM15\nG01X0.1\nM16\nX0.1Y0.2G85X0.3\nM30\n"
        self.assertEqual(
            drill_placement.drill_moved(text, FORMS[0], (10_000_000, 0)),
            b"M48\nMETRIC\nT1C0.2540000\n%\nT1\nX26.4000000Y12.7000000\nX26.4000000Y6.3500000\nG00X1.0000000Y0.0000000\nM15\n"
            b"G01X3.5400000Y0.0000000\nM16\nX3.5400000Y5.0800000G85X8.6200000Y5.0800000\nM30\n",
        )


def buried(code="07"):
    """Eight layers: SIG from the top through a blind via of layers 1 to 2, a buried one of 2 to 3, to a track on layer 3."""
    names = [f"l{k}.gbr" for k in range(1, 9)]
    tracks = {
        1: [*flash(12, (0, 0)), *draw(11, (0, 0), (5, 0)), *flash(10, (5, 0))],
        2: [*flash(10, (5, 0), (10, 0)), *draw(11, (5, 0), (10, 0))],
        3: [*flash(10, (10, 0)), *draw(11, (10, 0), (20, 0))],
    }
    files = {name: gerber(*tracks.get(k, flash(10, (50, 50)))) for k, name in enumerate(names, 1)}
    holes = {"a.drl": made.drill((5.0, 0.0)), "b.drl": made.drill((10.0, 0.0))}
    via = record("SIG", "VIA", 10, 0, "00").replace("A00", f"A{code}")
    records = [record("SIG", "U1.1", 0, 0), record("SIG", "VIA", 5, 0, "00").replace("A00", "A01"), via]
    told = {
        "copper": names,
        "drills": [{"file": "a.drl", "from": 1, "to": 2}, {"file": "b.drl", "from": 2, "to": 3}],
        "netlist": "n.ipc",
    }
    return {**files, **holes, "n.ipc": made.netlist(*records), "m.json": json.dumps(told)}


class Codes(Case):
    def test_buried_vias(self):
        wanted = (
            "with the access code of 1 record read as the first layer of the hole at their place (through records, 317, whose hole does not reach "
            "the layer of their code; KiCad writes such codes for buried vias), the board passes"
        )
        for program in self.over_both():
            self.assertEqual(self.told(buried(), program)[:2], (1, [wanted]))
            self.assertEqual(self.told(buried("02"), program)[:2], (0, []))
            self.assertEqual(self.told(buried("00"), program)[:2], (1, [wanted]))

    def test_another_fault(self):
        """A via whose code is right and whose copper is not gets no hint."""
        files = buried("03")
        files["l3.gbr"] = gerber(*flash(10, (50, 50)))
        files["b.drl"] = made.drill((11.0, 0.0))
        self.assertEqual(self.told(files)[:2], (1, []))

    def test_bottom_pads(self):
        """Pads of the bottom of a board of four layers, all with 02."""
        files = files_of()
        inner = gerber(*flash(10, (0, 0)))
        told = {
            "copper": ["a.gbr", "c.gbr", "d.gbr", "b.gbr"],
            "drills": [{"file": "p.drl", "from": 1, "to": 4}],
            "netlist": "n.ipc",
        }
        files = {**files, "c.gbr": inner, "d.gbr": inner, "m.json": json.dumps(told)}
        for program in self.over_both():
            status, words, found = self.told(files, program)
            self.assertEqual(
                (status, words),
                (
                    1,
                    [
                        "with the access codes of 5 records read as the bottom, 04 (surface records, 327, of layer 02, and no part's pad is on an "
                        "inner layer; pcb-rnd writes 02 for every bottom), the board passes"
                    ],
                ),
            )
            self.assertEqual(found[0].kind, "access codes")

    def test_a_code_that_is_no_layer(self):
        """A board of eight layers has none of number 9: the refusal has the hint that a layer of the board has."""
        program = made.built()
        if not program:
            raise unittest.SkipTest("there is no built program")
        status, words, found = self.told(buried("09"), program)
        self.assertEqual((status, len(words), found[0].kind), (3, 1, "access codes"))
        self.assertIn("read as the first layer of the hole at their place", words[0])
        self.assertTrue(words[0].endswith("the board passes"), words)
        elsewhere = {**buried("09"), "b.drl": made.drill((11.0, 0.0))}
        self.assertEqual(self.told(elsewhere, program)[:2], (3, []))

    def test_forms_of_tools(self):
        """Records as KiCad 9 and pcb-rnd write them: the columns of the code alone are changed."""
        drills = [{"file": "b.drl", "from": 2, "to": 3}]
        rows = [
            (
                "317SIG              VIA        MD0236PA07X+004000Y+002250X0550Y0000R000S3",
                "A07X",
                "A02X",
                access_codes.RULES[0],
            ),
            (
                "327GND              C3    -2          A02X+009646Y+004000X0512Y0590R000 S3      ",
                "A02X",
                "A08X",
                access_codes.RULES[1],
            ),
        ]
        for line, before, after, rule in rows:
            told = {"copper": [f"l{k}.gbr" for k in range(1, 9)], "drills": drills, "netlist": "n.ipc"}
            text = f"P  CODE 00\nP  UNITS CUST 0\nP  arrayDim   N\n{line}\n999\n"
            package = self.package({"n.ipc": text, "b.drl": made.drill((10.16, 5.715)), "m.json": json.dumps(told)})
            self.assertEqual(
                [files["n.ipc"].decode() for _, files in access_codes.recoded(package, *rule)],
                [text.replace(before, after)],
            )

    def test_two_layers(self):
        """Where 02 is the bottom it is read so."""
        package = self.package(files_of())
        self.assertEqual(
            [
                *access_codes.recoded(package, *access_codes.RULES[1]),
                *access_codes.recoded(package, *access_codes.RULES[0]),
            ],
            [],
        )


if __name__ == "__main__":
    unittest.main()
