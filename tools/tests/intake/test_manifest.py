"""tools/manifest on the examples and on made packages, in the manner of several tools."""
import contextlib
import errno
import io
import json
import os
import zipfile
from unittest import mock

from boardnet_show.command import manifest_run
from tests.fixtures import common

MANIFEST = os.path.join(common.TOOLS, "manifest")


def copper(function="", head=""):
    attribute = f"%TF.FileFunction,{function}*%\n" if function else ""
    return f"{head}{attribute}%FSLAX46Y46*%\n%MOMM*%\n%ADD10C,1.0*%\nD10*\nX0Y0D03*\nM02*\n"


def drill(function="", more=""):
    comment = f"; #@! TF.FileFunction,{function}\n" if function else ""
    return f"M48\n{comment}METRIC\n{more}T1C0.4\n%\nT1\nX0.0Y0.0\nM30\n"


def record(code, access, plating=" "):
    return f"{code}A".ljust(37) + plating + f"A{access}X+000000Y+000000\n"


def netlist(*records):
    return "P  UNITS CUST 1\n" + "".join(records) + "999\n"


NET = netlist(record("317", "00"))
SURFACE = netlist(record("327", "01"))
TWO = {
    "F.gbr": copper("Copper,L1,Top"),
    "B.gbr": copper("Copper,L2,Bot"),
    "p.drl": drill("Plated,1,2,PTH"),
    "n.ipc": NET,
}
WRITTEN = {"copper": ["F.gbr", "B.gbr"], "drills": [{"file": "p.drl", "from": 1, "to": 2}], "netlist": "n.ipc"}


def two(**changed):
    """The board of two layers with some files changed, added, or, with None, left out; a name's _ is its point."""
    files = dict(TWO)
    for name, text in changed.items():
        files[name.replace("_", ".")] = text
    return {name: text for name, text in files.items() if text is not None}


class Manifest(common.Case):
    def make(self, files, folder="board"):
        os.makedirs(self.path(folder), exist_ok=True)
        for name, text in files.items():
            self.write(os.path.join(folder, name), text)

    def manifest(self, *words):
        """Status, output and notes of the script with these words in the scratch folder."""
        out, notes, was = io.StringIO(), io.StringIO(), os.getcwd()
        os.chdir(self.scratch)
        try:
            with contextlib.redirect_stdout(out), contextlib.redirect_stderr(notes):
                status = manifest_run.main(list(words))
        except SystemExit as end:
            status = end.code
        finally:
            os.chdir(was)
        return status, out.getvalue(), notes.getvalue()

    def written(self, folder="board"):
        path = self.path(folder, "m.json")
        return json.loads(self.read(os.path.join(folder, "m.json"))) if os.path.exists(path) else None

    def refused(self, files, *wanted, words=()):
        """Nothing is written, the status is 1, and the last line has these words."""
        self.tearDownBoard()
        self.make(files)
        status, out, notes = self.manifest("board", *words)
        self.assertEqual((status, out, self.written()), (1, "", None), notes)
        for text in wanted:
            self.assertIn(text, notes.splitlines()[-1])
        return notes

    def taken(self, files, wanted, *said, words=()):
        self.tearDownBoard()
        self.make(files)
        status, _, notes = self.manifest("board", *words)
        self.assertEqual((status, self.written()), (0, wanted), notes)
        for text in said:
            self.assertIn(text, notes)
        return notes

    def tearDownBoard(self):
        for name in os.listdir(self.path("board")) if os.path.isdir(self.path("board")) else ():
            os.remove(self.path("board", name))

    def test_examples_as_they_are(self):
        for name in ("round_board", "four_layers", "two_layer", "touching_discs"):
            folder = self.example(name, name)
            os.rename(self.path(name, "m.json"), self.path("was"))
            words = ["--yes"] if name == "touching_discs" else []
            with self.subTest(name=name):
                status, _, notes = self.manifest(folder, *words)
                if name == "touching_discs":
                    # Its one file says nothing of a layer, and neither does its name.
                    self.assertEqual((status, "no file says or looks like a copper layer" in notes), (1, True))
                else:
                    self.assertEqual((status, self.read(f"{name}/m.json")), (0, self.read("was")))

    def test_copper_that_says_what_it_is(self):
        self.taken(TWO, WRITTEN)
        for layers in ("1e999", "[" * 100_000, "1" * 5000):
            self.taken(
                {
                    **TWO,
                    "x.gbrjob": f'{{"GeneralSpecs": {{"LayerNumber": {layers}}}}}',
                    "x.gbr": copper(f"Copper,L{'1' * 5000}"),
                },
                WRITTEN,
                "left out: x.gbr: its function is Copper,L11",
            )
        comment = copper("", "G04 #@! TF.FileFunction,Copper,L1,Top*\n")
        self.taken(two(F_gbr=comment), WRITTEN)
        self.taken(
            two(**{"mask_gbr": copper("Soldermask,Top"), "np_drl": drill("NonPlated,1,2,NPTH")}),
            WRITTEN,
            "left out: mask.gbr: its function is Soldermask,Top",
            "left out: np.drl: its holes are not plated",
        )
        for changed, word in [
            (two(B_gbr=None), "p.drl spans layers 1 to 2 of 1"),
            (two(F_gbr=None), "copper layers 2 are not 1 to 2 without a gap"),
            (two(X_gbr=copper("Copper,L1,Top")), "both say that they are copper layer 1"),
            (two(B_gbr=copper("Copper,L2,Inr")), "says that it is no bottom layer"),
            (
                two(x_gbrjob='{"GeneralSpecs": {"LayerNumber": 4}}'),
                "the job file speaks of 4 copper layers, and there are 2",
            ),
            (
                two(
                    F_gbr=copper("Copper,L1,Top", "%TF.SameCoordinates,A*%\n"),
                    B_gbr=copper("Copper,L2,Bot", "%TF.SameCoordinates,B*%\n"),
                ),
                "count from different origins",
            ),
        ]:
            with self.subTest(word=word):
                self.refused(changed, word)

    def test_holes_are_never_lost(self):
        for changed, *words in [
            (
                two(p_drl=None),
                "n.ipc has 1 records of through holes (317)",
                "export it in the Excellon format",
                "--no-drills",
            ),
            (two(p_drl=drill("NonPlated,1,2,NPTH")), "no drill file of plated holes"),
            (
                two(p_drl=drill("MixedPlating,1,2")),
                "p.drl mixes plated and unplated holes",
                "'PTH and NPTH in single file' off",
            ),
            (
                two(m_drl=drill("MixedPlating,1,2")),
                "m.drl mixes plated and unplated holes, and does not say which T1 is",
                "kicad-cli: --excellon-separate-th",
            ),
            (
                two(p_drl=drill("Plated,1,2,PTH", "; #@! TF.FileFunction,NonPlated,1,2,NPTH\n")),
                "several comments TF.FileFunction",
            ),
            (
                two(p_drl=drill("", ";TYPE=PLATED\n;TYPE=NON_PLATED\n")),
                "p.drl: line 8 makes a hole that the file itself calls unplated",
            ),
            (two(p_drl=drill("Plated")), "not which layers they span"),
            (two(p_drl=drill(f"Plated,1,{'2' * 5000}")), "not which layers they span"),
            (two(p_drl=drill("Plated,1,3,PTH")), "p.drl spans layers 1 to 3 of 2"),
            (two(p_drl=copper("Plated,1,3,PTH,Drill")), "p.drl spans layers 1 to 3 of 2"),
            (two(p_drl=copper("Plated,PTH,Drill")), "not which layers they span"),
            (two(p_drl=copper("NonPlated,1,2,NPTH,Drill")), "no drill file of plated holes"),
            (
                two(p_drl=copper("Plated,1,2,PTH,Drill").replace("C,", "R,")),
                "a drill file in the Gerber format, and line",
            ),
        ]:
            with self.subTest(words=words):
                self.refused(changed, *words)
        none = dict(WRITTEN, drills=[])
        self.taken(two(p_drl=None), none, words=["--no-drills"])
        self.taken(two(p_drl=None, n_ipc=SURFACE), none)
        self.taken(two(p_drl=None, n_ipc=netlist(record("317", "00", "U"), record("327", "01"))), none)
        self.taken({"F.gbr": TWO["F.gbr"], "n.ipc": NET}, {"copper": ["F.gbr"], "drills": [], "netlist": "n.ipc"})

    def test_mends(self):
        """A file of both kinds of holes whose tools say which they are is taken; copies are written where they are asked for."""
        own = "; #@! TA.AperFunction,{},ViaDrill\n"
        mixed = drill("MixedPlating,1,2", own.format("NonPlated") + "T2C1.0\n" + own.format("Plated"))
        told = "to be mended: p.drl: line 2, `; #@! TF.FileFunction,MixedPlating,1,2`"
        self.assertIn("`boardnet show` makes these mends", self.taken(two(p_drl=mixed), WRITTEN, told))
        copies = {**WRITTEN, "drills": [{"file": "p.mended.drl", "from": 1, "to": 2}]}
        self.assertNotIn(
            "to be mended", self.taken(two(p_drl=mixed), copies, "mended: p.drl: line 2", words=["--mend"])
        )
        self.assertEqual(
            (self.read("board/p.drl"), self.read("board/p.mended.drl")),
            (mixed, mixed.replace("MixedPlating", "Plated")),
        )
        self.assertEqual(self.manifest("board", "--mend")[0], 0)
        self.assertEqual(
            (self.written(), sorted(os.listdir(self.path("board")))),
            (copies, ["B.gbr", "F.gbr", "m.json", "n.ipc", "p.drl", "p.mended.drl"]),
        )
        os.remove(self.path("board", "p.drl"))
        self.assertEqual((self.manifest("board")[0], self.written()), (0, copies))
        plain = "%\n" + drill("Plated,1,2,PTH").replace("METRIC", "METRIC,000.000")
        self.taken(two(p_drl=plain), WRITTEN, "to be mended: p.drl: line 1, `%`", "line 4, `METRIC,000.000`")
        self.taken(TWO, WRITTEN, words=["--mend"])

    def test_drills_by_other_evidence(self):
        rows = [
            ("p.drl", drill(), "nothing says whether its holes are plated"),
            ("x-PTH.drl", drill(), "its name says that its holes are plated"),
            ("x.drl", drill("", ";TYPE=PLATED\n"), "its comment says TYPE=PLATED"),
        ]
        for name, text, word in rows:
            files = {**two(p_drl=None), name: text}
            with self.subTest(name=name):
                notes = self.refused(files, "say --yes")
                self.assertIn(f"would be taken as plated holes from layer 1 to 2: {name}: {word}", notes)
                self.taken(
                    files,
                    dict(WRITTEN, drills=[{"file": name, "from": 1, "to": 2}]),
                    f"taken as plated holes from layer 1 to 2: {name}",
                    words=["--yes"],
                )
        files = {**TWO, "x-NPTH.drl": drill()}
        self.assertIn("unplated holes, left out: x-NPTH.drl", self.refused(files, "say --yes"))
        self.taken(files, WRITTEN, words=["--yes"])
        self.taken(
            {**TWO, "x.drl": drill("", ";TYPE=NON_PLATED\n")}, WRITTEN, "TYPE=NON_PLATED, so its holes join nothing"
        )

    def test_a_word_counts_for_what_stands_behind_it(self):
        """Of two tools the one is called unplated: the file is not left out, and what is not said is asked for."""
        two_tools = "T2C1.0\n%\nT1\nX0.0Y0.0\nT2\nX3.0Y0.0\nM30\n"
        for text, word in [
            (
                drill("", "").replace("%\nT1\nX0.0Y0.0\nM30\n", ";TYPE=NON_PLATED\n" + two_tools),
                "p.drl: line 10 makes a hole that the file itself calls unplated",
            ),
            (
                drill("", "").replace("M30", ";TYPE=NON_PLATED\nX3.0Y0.0\nM30"),
                "p.drl: line 8 makes a hole that the file itself calls unplated",
            ),
            (
                drill(
                    "",
                    ";T01 Holesize 1. = 63.0 Tolerance = +0.0/-0.0 PLATED MILS\n;T02 Holesize 2. = 63.0 NON_PLATED MILS\n",
                ),
                "say --yes",
            ),
            (drill("", "").replace("M30", ";TYPE=NON_PLATED\nM30"), "say --yes"),
            (";TYPE=PLATED\n" + drill("", ";TYPE=OTHER\n"), "say --yes"),
        ]:
            with self.subTest(text=text):
                self.refused(two(p_drl=text), word)
        for text in (
            drill("", ";T01 Holesize 1. = 63.0 Tolerance = +0.0/-0.0 NON_PLATED MILS\n"),
            "; NON-PLATED HOLES START AT T1\n" + drill(),
            drill("", "").replace("X0.0", ";TYPE=NON_PLATED\nX0.0"),
            drill("", ";TYPE=NON_PLATED\n"),
            drill("", "; #@! TA.AperFunction,NonPlated\n").replace("C0.4", "C+0.4"),
        ):
            with self.subTest(text=text):
                self.taken({**TWO, "q.drl": text}, WRITTEN, "left out: q.drl: ", "so its holes join nothing")
        notes = self.taken(
            two(p_drl=drill("", ";TYPE=PLATED\n").replace("%", ";TYPE=X\nT2C1.0\n%", 1)), WRITTEN, words=["--yes"]
        )
        self.assertIn("p.drl: it says of some of its tools that they are plated, nothing of others (T2)", notes)

    def test_copper_by_other_evidence(self):
        name = "%LN{}*%\n"
        rows = [
            # files in order of their layers, and others
            (
                ["b.top.copper.none.3.gbr", "b.bottom.copper.none.6.gbr"],
                ["b.top.mask.none.2.gbr", "b.top.silk.none.5.gbr"],
            ),
            (["x-F_Cu.gbr", "x-In1_Cu.gbr", "x-In2_Cu.gbr", "x-B_Cu.gbr"], ["x-F_Mask.gbr", "x-Edge_Cuts.gbr"]),
            (["x.GTL", "x.G1", "x.G2", "x.GBL"], ["x.GTS", "x.GBO", "x.GM1", "x.GKO"]),
            (["x.cmp", "x.sol"], ["x.stc.gbr"]),
            (["l1.gbr", "l2.gbr", "l3.gbr"], ["readme.gbr"]),
            (["layer_1.ger", "layer_2.ger"], []),
            (["copper_top.gbr", "copper_bottom.gbr"], ["soldermask_top.gbr"]),
            (["board.top.gbr", "board.bottom.gbr"], ["board.topsilk.gbr"]),
            (
                ["EtchLayer1Top.gdo", "EtchLayer2.gdo", "EtchLayer3Bottom.gdo"],
                ["SoldermaskTop.gdo", "BoardOutline.gdo"],
            ),
            (["TOP.art", "L2_GND.art", "L3_PWR.art", "BOTTOM.art"], ["SMT.art", "SST.art"]),
            (["art001.pho", "art002.pho", "art003.pho"], ["sm001021.pho", "sst001026.pho"]),
            (["copper_top.gbr", "copper_inner_l2.gbr", "copper_bottom.gbr"], ["silkscreen_top.gbr"]),
            (["copper_top_l1.gbr", "copper_inner_l2.gbr", "copper_bottom_l3.gbr"], []),
            (["x.cmp", "x.ly2", "x.l15", "x.sol"], ["x.stc"]),
            (["x.TOP", "x.IN1", "x.IN2", "x.BOT"], []),
            (
                ["mini - CADCAM Top Copper.GBR", "mini - CADCAM Bottom Copper.GBR"],
                ["mini - CADCAM Top Solder Resist.GBR", "mini - CADCAM Mechanical 1.GBR"],
            ),
            (["resistor-board.top.gbr", "resistor-board.bottom.gbr"], []),
        ]
        for layers, others in rows:
            files = {file: copper() for file in [*layers, *others]}
            files["n.ipc"] = SURFACE
            with self.subTest(layers=layers):
                notes = self.refused(files, "say --yes")
                for number, file in enumerate(layers, 1):
                    self.assertIn(f"would be taken as copper layer {number}: {file}: its name looks so", notes)
                self.taken(files, {"copper": layers, "drills": [], "netlist": "n.ipc"}, words=["--yes"])
        named = {
            "a.gbr": copper("", name.format("TOP_COPPER_NONE_3")),
            "b.gbr": copper("", name.format("INTERN_COPPER_NONE_4")),
            "c.gbr": copper("", name.format("BOTTOM_COPPER_NONE_6")),
            "top.gbr": copper("", name.format("TOP_MASK_NONE_2")),
            "n.ipc": SURFACE,
        }
        notes = self.taken(
            named, {"copper": ["a.gbr", "b.gbr", "c.gbr"], "drills": [], "netlist": "n.ipc"}, words=["--yes"]
        )
        self.assertIn("taken as copper layer 1: a.gbr: its layer name is TOP_COPPER_NONE_3", notes)

    def test_guesses_that_make_no_board(self):
        surface = {"n.ipc": SURFACE}
        for files, word in [
            (["x.gtl", "y.gtl"], "both look like the same copper layer"),
            (["l1.gbr", "l3.gbr"], "are not layers 1 to 2 by their names"),
            (["l1.gbr", "x.gbl"], "are not layers 1 to 2 by their names"),
            (["TOP.art", "L3.art", "BOTTOM.art"], "are not layers 1 to 3 by their names"),
            (["TOP.art", "L1.art", "BOTTOM.art"], "are not layers 1 to 3 by their names"),
            (
                ["EtchLayer1Bottom.gdo", "EtchLayer2Top.gdo"],
                "EtchLayer1Bottom.gdo looks like layer 1 of 2, and its name says another side",
            ),
            (
                ["EtchLayer1Top.gdo", "EtchLayer2Bottom.gdo", "EtchLayer3.gdo"],
                "looks like layer 2 of 3, and its name says another side",
            ),
            (["art001.pho", "art003.pho"], "are not layers 1 to 2 by their names"),
            (["x.cmp", "x.ly2", "inner3.gbr", "x.sol"], "are of different kinds"),
            (["x.ly2", "x.l15"], "no top or no bottom one"),
            (["x.TOP", "x.IN2", "x.BOT"], "so one is missing"),
            (["x-F_Cu.gbr", "x-In1_Cu.gbr"], "no top or no bottom one"),
            (["x.gtl", "x.gp1", "x.gbl"], "looks like an inner plane"),
            (["some.gbr"], "no file says or looks like a copper layer"),
        ]:
            with self.subTest(files=files):
                self.refused({**{name: copper() for name in files}, **surface}, word, words=["--yes"])
        self.refused(
            {"a.gbr": copper("", f"%LNINNER{'1' * 5000}*%\n"), **surface},
            "no file says or looks like a copper layer",
            words=["--yes"],
        )
        self.refused(two(B_gbr=copper("Copper,L2"), x_gbl=copper()), "looks like copper", "while other layers have one")
        # A top layer alone may lack its bottom, unless the job file says that there is none.
        one = {"F.gbr": copper("Copper,L1,Top"), "B_Cu.gbr": copper(), "n.ipc": SURFACE}
        self.refused(one, "looks like copper", "while other layers have one")
        self.refused({**one, "d.drl": drill()}, "looks like copper", words=["--yes"])
        self.taken(
            {**one, "x.gbrjob": '{"GeneralSpecs": {"LayerNumber": 1}}'},
            {"copper": ["F.gbr"], "drills": [], "netlist": "n.ipc"},
            "left out: B_Cu.gbr: it looks like copper",
        )
        self.taken(two(x_gbl=copper()), WRITTEN, "left out: x.gbl: it looks like copper")

    def test_copper_by_an_order_in_comments(self):
        """Altium and Protel count the copper in a comment, whatever the files are called; gEDA pcb has groups of layers."""

        def board(*numbers, names=("a.GTL", "b.x", "c.y", "d.GBL")):
            return {
                **{
                    name: copper("", f"G04*\nG04 Layer_Physical_Order={number}*\nG04 Layer_Color=255*\n")
                    for name, number in zip(names, numbers)
                },
                "n.ipc": SURFACE,
            }

        notes = self.refused(board(1, 3, 2, 4), "say --yes")
        self.assertIn("would be taken as copper layer 2: c.y: its comment says Layer_Physical_Order=2", notes)
        self.taken(
            board(1, 3, 2, 4),
            {"copper": ["a.GTL", "c.y", "b.x", "d.GBL"], "drills": [], "netlist": "n.ipc"},
            words=["--yes"],
        )
        for files, word in [
            (board(1, 2, 3, 5), "copper layers 1, 2, 3, 5 by Layer_Physical_Order are not 1 to 5 without a gap"),
            (board(2, 3, 4), "are not 1 to 4 without a gap"),
            (board("1*\nG04 Layer_Physical_Order=2", 2, 3, 4), "a.GTL says Layer_Physical_Order=1 and 2"),
            (board(1, 2, 2, 3), "both look like the same copper layer"),
            (board(4, 2, 3, 1), "d.GBL says Layer_Physical_Order=1 of 4, and its name says another place"),
            (
                board(1, 2, 3, 4, names=("a.GTL", "b.G1", "c.GP1", "d.GBL")),
                "c.GP1 looks like an inner plane, which may be drawn as a negative without a word of it",
            ),
            (
                board(1, 2, 3, names=("a.GTL", "b.G1", "c.G2")),
                "c.G2 says Layer_Physical_Order=3 of 3, and its name says another place",
            ),
            ({**board(1, 2), "d.GBL": copper()}, "not all say their Layer_Physical_Order"),
        ]:
            with self.subTest(word=word):
                self.refused(files, word, words=["--yes"])
        other = {
            "a.GTL": copper("", "G04 see Layer_Physical_Order=2*\n"),
            "b.GBL": copper("", "%INLayer_Physical_Order=1*%\n"),
            "n.ipc": SURFACE,
        }
        self.taken(
            other,
            {"copper": ["a.GTL", "b.GBL"], "drills": [], "netlist": "n.ipc"},
            "b.GBL: its name looks so",
            words=["--yes"],
        )

    def test_copper_by_comments(self):
        """Films of Allegro say their layers and their name, EasyEDA and Xpedition a layer, titles of gEDA pcb the side of a group; two of a file's
        names that say different layers are refused, and so are copper of no known layer and a film that only its comment calls negative.
        """
        film = "G04 Film Name:    {}*\nG04 Layer:  VIA CLASS/{}*\nG04 Layer:  ETCH/{}*\n"
        named = lambda *names: film.format(*names[:1] * 3) if len(names) == 1 else film.format(*names)
        for heads, why in [
            ([named("TOP"), named("L2_GND"), named("BOTTOM")], "its comment says Layer: ETCH/"),
            ([f"G04 Film Name: {name} *\n" for name in ("TOP", "LAYER_2", "BOTTOM")], "its comment says Film Name: "),
            (
                ["G04 Layer: TopLayer*\n", "G04 Layer: InnerLayer1*\n", "G04 Layer: BottomLayer*\n"],
                "its comment says the layer ",
            ),
            (
                [f"G04 Layer : EtchLayer{number}.gdo*\n" for number in ("1Top", "2", "3Bottom")],
                "its comment says the layer EtchLayer",
            ),
            (
                [
                    "G04 Title: (unknown), component *\n%LNGROUP0*%\n",
                    "%LNGROUP1*%\n",
                    "G04 Title: x, solder side*\n%LNGROUP2*%\n",
                ],
                "",
            ),
        ]:
            files = {**{f"{name}.ger": copper("", head) for name, head in zip("cab", heads)}, "n.ipc": SURFACE}
            with self.subTest(heads=heads):
                self.assertIn(f"would be taken as copper layer 1: c.ger: {why}", self.refused(files, "say --yes"))
                self.taken(
                    files, {"copper": ["c.ger", "a.ger", "b.ger"], "drills": [], "netlist": "n.ipc"}, words=["--yes"]
                )
        mask = named("SMT").replace("ETCH/", "PIN/SOLDERMASK_TOP")
        two = {"TOP.art": copper("", named("TOP")), "BOTTOM.art": copper("", named("BOTTOM")), "n.ipc": SURFACE}
        self.taken(
            {**two, "x_top.art": copper("", mask)},
            {"copper": ["TOP.art", "BOTTOM.art"], "drills": [], "netlist": "n.ipc"},
            words=["--yes"],
        )
        for name, head, word in [
            (
                "TOP.art",
                named("BOTTOM"),
                "TOP.art: its comment says Layer: ETCH/BOTTOM, and it says another layer by TOP.art",
            ),
            ("L2.art", named("TOP"), "and it says another layer by L2.art"),
            ("x.art", named("TOP", "BOTTOM", "BOTTOM"), "says Layer: ETCH/BOTTOM, and it says another layer by TOP"),
            ("x.art", named("TOP") + "G04 Layer: ETCH/BOTTOM*\n", "and it says another layer by ETCH/BOTTOM"),
            (
                "GND.art",
                named("GND"),
                "GND.art: its comment says Layer: ETCH/GND, which is copper, and no name says which layer",
            ),
            (
                "L2.art",
                named("L2") + "G04 Mode:      Negative*\n",
                "L2.art: its comment says that its film is negative",
            ),
            ("other_top.art", named("TOP"), "both look like the same copper layer"),
        ]:
            with self.subTest(name=name, head=head):
                self.refused({**two, name: copper("", head)}, word, words=["--yes"])
        self.assertIn(
            "L2.art: its layer name is L2",
            self.refused({**two, "L2.art": copper("", "G04 Mode: Negative*\n%IPNEG*%\n%LNL2*%\n")}, "say --yes"),
        )

    def test_inner_layers_without_a_gap(self):
        """A gap between the numbers of inner layers is a layer that is missing; a group of layers of gEDA pcb is one."""

        def board(*inner, name="x-In{}_Cu.gbr", head=""):
            its = {name.format(k): copper("", head.format(k)) for k in inner}
            return {"x-F_Cu.gbr": copper(), **its, "x-B_Cu.gbr": copper(), "n.ipc": SURFACE}

        group = {"name": "x{}.gbr", "head": "%LNGROUP{}*%\n"}
        for files in (
            board(1, 2),
            board(3, **group),
            board(3, 4, **group),
            board(2, 3, name="inner{}.gbr"),
            board(4, 7, name="a{}.gbr", head="%LNINTERN_COPPER_NONE_{}*%\n"),
        ):
            with self.subTest(files=list(files)):
                self.taken(files, {"copper": list(files)[:-1], "drills": [], "netlist": "n.ipc"}, words=["--yes"])
        for files in (
            board(1, 3),
            board(2),
            board(2, 4, **group),
            board(3, name="inner{}.gbr"),
            board(2, name="x.g{}"),
        ):
            with self.subTest(files=list(files)):
                self.refused(files, "so one is missing: export every copper layer", words=["--yes"])
        self.refused({**board(1), **board(2, **group)}, "are of different kinds", words=["--yes"])

    def test_copper_that_nothing_names(self):
        """Beside copper that names alone tell, a Gerber file of which nothing says what it is may be a layer: it is asked for."""
        names = {"x.gtl": copper(), "x.gbl": copper(), "n.ipc": SURFACE}
        written = {"copper": ["x.gtl", "x.gbl"], "drills": [], "netlist": "n.ipc"}
        notes = self.refused({**names, "mystery.gbr": copper(), "x.gts": copper()}, "say --yes")
        self.assertIn("would be taken as no copper, left out: mystery.gbr: ", notes)
        self.assertNotIn("would be taken as no copper, left out: x.gts", notes)
        for name in ("x.plc", "x.pls", "x.stc", "x.sts", "x.crc", "x.dim", "x-F_Mask.gbr", "drill_map.gbr"):
            self.assertNotIn("would be taken as no copper", self.refused({**names, name: copper()}, "say --yes"), name)
        self.taken(
            {**names, "mystery.gbr": copper()}, written, "taken as no copper, left out: mystery.gbr", words=["--yes"]
        )
        for name, text in (
            ("x-mask-In1_Cu.gbr", copper()),
            ("keep_l2.gbr", copper()),
            ("hedgehog-gnd.gbr", copper()),
            ("y.gbr", copper("Copper,2,Inr")),
            ("y.gbr", copper("copper,L2")),
            ("z.gbr", " " * 100_000 + copper()),
        ):
            self.assertIn(
                f"would be taken as no copper, left out: {name}: ", self.refused({**names, name: text}, "say --yes")
            )
        notes = self.refused(
            {**names, "mystery.gbr": copper(), "x.gbrjob": '{"GeneralSpecs": {"LayerNumber": 2}}'}, "say --yes"
        )
        self.assertNotIn(
            "mystery.gbr: it is a Gerber file without the attribute TF.FileFunction, and no name says that it is copper\nwould",
            notes,
        )
        self.assertNotIn("would be taken as no copper", notes)

    def test_words_and_not_bytes(self):
        """An attribute is a word of its own, or a whole comment; what only stands in another word, behind the end, or in a macro says nothing."""
        other = [
            copper("", head)
            for head in (
                "G04 not %TF.FileFunction,Copper,L2,Bot*\n".replace("%", ""),
                "%LNX TF.FileFunction,Copper,L2,Bot*%\n",
                "%AMX*0 a*TF.FileFunction,Copper,L2,Bot*%\n",
            )
        ] + [copper() + "%TF.FileFunction,Copper,L2,Bot*%\n"]
        for text in other:
            with self.subTest(text=text):
                self.refused(two(B_gbr=text), "spans layers 1 to 2 of 1")
        for head in (
            "%MOMM*TF.FileFunction,Copper,L2,Bot*%\n",
            "G04 #@!TF.FileFunction,Copper,L2,Bot*\n",
            "%\nTF.FileFunction,Copper,L2,Bot*%\n",
        ):
            with self.subTest(head=head):
                self.taken(two(B_gbr=copper("", head)), WRITTEN)
        twice = copper("Copper,L2,Bot", "G04 #@! TF.FileFunction,Copper,L3,Inr*\n")
        self.refused(two(B_gbr=twice), "says of itself that it is Copper,L3,Inr and Copper,L2,Bot")
        self.refused(
            two(B_gbr=copper("Soldermask,Bot", "G04 #@! TF.FileFunction,Copper,L2,Bot*\n")), "says of itself that it is"
        )
        self.taken(two(B_gbr=copper("Copper,L2,Bot", "G04 #@! TF.FileFunction,Copper,L2,Bot*\n")), WRITTEN)

    def test_a_file_that_may_be_the_bottom(self):
        one = {"F.gbr": copper("Copper,L1,Top"), "other.gbr": copper(), "n.ipc": SURFACE}
        written = {"copper": ["F.gbr"], "drills": [], "netlist": "n.ipc"}
        self.assertIn("would be taken as no copper, left out: other.gbr", self.refused(one, "say --yes"))
        self.taken(one, written, words=["--yes"])
        self.taken({**one, "x.gbrjob": '{"GeneralSpecs": {"LayerNumber": 1}}'}, written)
        self.taken(two(other_gbr=copper()), WRITTEN, "left out: other.gbr")

    def test_netlists(self):
        other = dict(WRITTEN, netlist="other.ipc")
        several = two(other_ipc=SURFACE)
        self.refused(several, "several netlists (n.ipc, other.ipc)", "--netlist FILE")
        self.taken(several, other, words=["--netlist", "other.ipc"])
        self.refused(several, "--netlist F.gbr names no IPC-D-356A netlist", words=["--netlist", "F.gbr"])
        self.refused(two(n_ipc=None), "there is no IPC-D-356A netlist")
        self.taken(two(n_ipc="P  UNITS CUST 1\n999\n"), WRITTEN, "HAS NO TEST POINTS")
        self.taken(two(n_ipc=NET.replace("\n", "\r\n")), WRITTEN)
        self.assertNotIn("NO TEST POINTS", self.taken(TWO, WRITTEN))

    def test_each_bad_file_by_its_own_word(self):
        rows = [
            ("empty.gbr", "", "it is empty"),
            ("blank.gbr", " \n\n", "it has nothing but blanks"),
            ("a.zip", b"PK\x03\x04rest", "it is a zip archive; give the archive itself"),
            ("a.gz", b"\x1f\x8brest", "it is a gzip archive"),
            ("a.pdf", "%PDF-1.4", "it is a PDF"),
            ("a.png", b"\x89PNG\r\n", "it is a picture"),
            ("b.kicad_pcb", "(kicad_pcb (version 1))", "it is a board of KiCad"),
            ("o.json", "{}", "it is a JSON file"),
            ("note.txt", "some words", "it is no Gerber, drill or IPC-D-356A file"),
            ("note.gbr", "some words", "it is no Gerber, drill or IPC-D-356A file"),
            ("\u00e9.txt", "words", "it is no Gerber, drill or IPC-D-356A file"),
            ("mark.txt", b"\xef\xbb\xbfwords", "it is no Gerber, drill or IPC-D-356A file (after a byte order mark)"),
            ("lines.txt", "\n" * 100_000 + "words", "it is no Gerber, drill or IPC-D-356A file"),
        ]
        notes = self.taken({**TWO, **{name: text for name, text, _ in rows}}, WRITTEN)
        for name, _, word in rows:
            self.assertIn(f"left out: {name.encode('ascii', 'backslashreplace').decode()}: {word}", notes)

    def test_files_that_count_and_cannot_stand(self):
        mark = b"\xef\xbb\xbf"
        for name in TWO:
            with self.subTest(name=name):
                self.refused(
                    {**TWO, name: mark + TWO[name].encode()},
                    f"{name}: it begins with a byte order mark",
                    "save it without one",
                )
                self.refused({**TWO, name: b"\xff\xfe" + TWO[name].encode("utf-16-le")}, "a byte order mark of UTF-16")
                files = {key: text for key, text in TWO.items() if key != name}
                self.refused(
                    {**files, "\u00e9" + name: TWO[name]},
                    f"the name \\xe9{name} is not 1 to 200 printable ASCII characters",
                    "rename the file",
                )
        self.refused({**two(n_ipc=None), "n" * 201 + ".ipc": NET}, "1 to 200 printable ASCII")
        self.refused({**two(F_gbr=None), "\u00e9.gbr": copper()}, "copper layers 2 are not 1 to 2 without a gap")

    def packed(self, how):
        """The bytes of an archive of one file."""
        with zipfile.ZipFile(self.path("packed.zip"), "w", how) as made:
            made.writestr("F.gbr", copper("Copper,L1,Top") * 20)
        with open(self.path("packed.zip"), "rb") as file:
            return file.read()

    def test_archives(self):
        def archive(name, files):
            with zipfile.ZipFile(self.path(name), "w") as made:
                for inside, text in files.items():
                    made.writestr(inside, text)

        archive("b.zip", {f"fab/{name}": text for name, text in TWO.items()})
        status, out, notes = self.manifest("b.zip")
        self.assertEqual((status, self.written("b")), (0, WRITTEN))
        self.assertIn("unpacked to b", notes)
        self.assertIn("b is there already", self.manifest("b.zip")[2])
        archive("twice.zip", {"a/F.gbr": "x", "b/F.gbr": "y"})
        self.assertIn("two files of the name F.gbr", self.manifest("twice.zip")[2])
        archive("up.zip", {"../../F.gbr": TWO["F.gbr"], "n.ipc": SURFACE})
        self.assertEqual(
            (self.manifest("up.zip")[0], sorted(os.listdir(self.path("up")))), (0, ["F.gbr", "m.json", "n.ipc"])
        )
        self.write("bad.zip", b"PK\x03\x04 no archive")
        self.assertIn("is no zip archive that can be opened", self.manifest("bad.zip")[2])
        for packed in (zipfile.ZIP_DEFLATED, zipfile.ZIP_LZMA, zipfile.ZIP_BZIP2):
            damaged = bytearray(self.packed(packed))
            damaged[40:48] = b"\xff" * 8
            self.write("damaged.zip", bytes(damaged))
            status, _, notes = self.manifest("damaged.zip")
            self.assertEqual(
                (
                    status,
                    notes.count("\n"),
                    "is no zip archive that can be opened" in notes,
                    os.path.exists(self.path("damaged")),
                ),
                (1, 1, True, False),
                notes,
            )
        self.write("plain.gbr", copper())
        self.assertIn("is no zip archive", self.manifest("plain.gbr")[2])
        for name in ("nowhere", "nowhere.zip"):
            self.assertEqual(self.manifest(name)[0], 1)

    def test_words(self):
        self.make(TWO)
        self.assertEqual(
            self.run_words([MANIFEST, "board"])[:2], (0, "board/m.json: 2 copper, 1 drill files, netlist n.ipc\n")
        )
        self.assertEqual(self.manifest("--help")[0], 0)
        self.assertEqual(self.manifest()[0], 2)
        for words in (["other"], ["--net", "n.ipc"]):
            self.assertEqual(self.manifest("board", *words)[0], 2)

    def test_written_whole_or_not_at_all(self):
        """Where there is no room the manifest that was there stays, and so it does at an interrupt."""
        self.make(two(m_json="before"))
        with mock.patch("os.replace", side_effect=OSError(errno.ENOSPC, "No room")):
            self.assertEqual(self.manifest("board"), (1, "", "manifest: board/m.json: No room: cannot be written\n"))
        with mock.patch.object(manifest_run.gathering, "gather", side_effect=KeyboardInterrupt):
            self.assertEqual(self.manifest("board"), (130, "", ""))
        with zipfile.ZipFile(self.path("b.zip"), "w") as made:
            made.writestr("n.ipc", NET)
        with mock.patch.object(manifest_run.archives, "write", side_effect=OSError(errno.ENOSPC, "No room")):
            self.assertEqual(self.manifest("b.zip"), (1, "", "manifest: b.zip: No room\n"))
        self.assertEqual(
            (self.read("board/m.json"), sorted(os.listdir(self.path("board"))), os.path.exists(self.path("b"))),
            ("before", sorted([*TWO, "m.json"]), False),
        )

    def test_written_manifests_are_read(self):
        program = common.program()
        self.taken(TWO, WRITTEN)
        status, _, notes = self.run_words([program, "check", "m.json"], self.path("board"))
        self.assertEqual((status, notes), (0, "boardnet: agrees\n"))
