"""The plugin of KiCad's board editor: what it exports of a board made here, where KiCad's module is installed, and what it says."""
import json
import os
import subprocess
import sys
import zipfile

from tests.fixtures import common, made

FOLDER = os.path.join(common.TOOLS, "kicad")
PLUGINS = os.path.join(FOLDER, "plugins")
# KiCad's module is that of the system's own Python.
PYTHON = "/usr/bin/python3"

# A board of two layers: a part with a through pad and one with a surface pad on one net, joined by a track where that is asked.
BOARD = """
import sys
sys.path.insert(0, sys.argv[1])
import pcbnew
import export

def spot(x, y):
    make = getattr(pcbnew, "wxPointMM", None) or (lambda a, b: pcbnew.VECTOR2I(pcbnew.FromMM(a), pcbnew.FromMM(b)))
    return make(x, y)

def size(x, y):
    make = getattr(pcbnew, "wxSizeMM", None) or (lambda a, b: pcbnew.VECTOR2I(pcbnew.FromMM(a), pcbnew.FromMM(b)))
    return make(x, y)

board = pcbnew.BOARD()
net = pcbnew.NETINFO_ITEM(board, "SIG")
board.Add(net)
board.GetDesignSettings().SetAuxOrigin(spot(20, 40))
for number, (x, is_through) in enumerate(((30, True), (40, False)), 1):
    part = pcbnew.FOOTPRINT(board)
    part.SetReference(f"J{number}")
    pad = pcbnew.PAD(part)
    pad.SetNumber("1")
    pad.SetShape(pcbnew.PAD_SHAPE_CIRCLE)
    pad.SetSize(size(1.6, 1.6))
    if is_through:
        pad.SetDrillSize(size(0.8, 0.8))
    else:
        pad.SetAttribute(pcbnew.PAD_ATTRIB_SMD)
        layers = pcbnew.LSET()
        layers.AddLayer(pcbnew.F_Cu)
        pad.SetLayerSet(layers)
    pad.SetNet(net)
    part.Add(pad)
    board.Add(part)
    part.SetPosition(spot(x, 30))
if sys.argv[3] == "joined":
    track = pcbnew.PCB_TRACK(board)
    track.SetStart(spot(30, 30))
    track.SetEnd(spot(40, 30))
    track.SetWidth(pcbnew.FromMM(0.25))
    track.SetLayer(pcbnew.F_Cu)
    track.SetNet(net)
    board.Add(track)
export.export(board, sys.argv[2])
"""


def has_kicad():
    if not os.path.exists(PYTHON):
        return False
    return (
        subprocess.run(
            [PYTHON, "-c", "import pcbnew"], stdout=subprocess.DEVNULL, stderr=subprocess.DEVNULL, check=False
        ).returncode
        == 0
    )


class Exported(made.Case):
    def setUp(self):
        super().setUp()
        if not has_kicad():
            self.skipTest("KiCad's module pcbnew is not installed")

    def exported(self, how):
        script, folder = self.write("board.py", BOARD), self.path(how)
        os.makedirs(folder)
        status, _, notes = self.run_words([PYTHON, "-B", script, PLUGINS, folder, how])
        self.assertEqual(status, 0, notes)
        return folder

    def test_files(self):
        folder = self.exported("joined")
        names = sorted(os.listdir(folder))
        self.assertEqual(
            [name for name in names if name.endswith((".drl", ".d356"))], ["-NPTH.drl", "-PTH.drl", "netlist.d356"]
        )
        self.assertEqual(len([name for name in names if name.endswith(".gbr")]), 3, names)

    def test_answers(self):
        for how, status, word in (("joined", 0, "PASS "), ("parted", 1, "FAIL ")):
            with self.subTest(how=how):
                told = self.run_words(
                    [made.SHOW, self.exported(how), "--yes"], environment={"BOARDNET": common.program()}
                )
                self.assertEqual((told[0], told[1].startswith(word)), (status, True), told)


class Judged(common.Case):
    """`judge` runs in a Python of its own, over a stand-in for the command."""

    def judged(self, script, **environment):
        self.write("bin/boardnet", script, 0o755)
        words = [
            sys.executable,
            "-B",
            "-c",
            "import sys, judge; told = judge.judge(sys.argv[1]); print(told.status, told.page); print(judge.message(told))",
        ]
        return self.run_words(
            [*words, self.scratch],
            folder=PLUGINS,
            environment={"BOARDNET_COMMAND": self.path("bin", "boardnet"), **environment},
        )

    def test_page(self):
        status, out, _ = self.judged(
            '#!/bin/sh\n[ "$1 $3" = "show --page" ] || exit 9\necho drawn >"$4"\necho "$2: differs"\nexit 1\n'
        )
        self.assertEqual((status, out), (0, f"1 {self.path('boardnet.html')}\n{self.scratch}: differs\n"))

    def test_no_page(self):
        status, out, _ = self.judged("#!/bin/sh\necho refused >&2\nexit 3\n")
        self.assertEqual((status, out), (0, "3 None\nrefused\n"))

    def test_long_and_silent(self):
        _, out, _ = self.judged("#!/bin/sh\nfor k in 1 2 3 4 5 6 7 8 9 10 11 12 13 14; do echo $k; done\n")
        self.assertEqual(out.splitlines()[1:], [*map(str, range(1, 13)), ".."])
        _, out, _ = self.judged("#!/bin/sh\nexit 4\n")
        self.assertEqual(out.splitlines()[1], "boardnet ended with status 4 and said nothing.")

    def test_no_command(self):
        script = "import judge; judge.CHECKOUT = '/nowhere'; print(judge.command())"
        status, _, notes = self.run_words(
            [sys.executable, "-B", "-c", script],
            folder=PLUGINS,
            environment={"PATH": "/nowhere", "BOARDNET_COMMAND": ""},
        )
        self.assertEqual((status, "judge.NoCommand: There is no command `boardnet`" in notes), (1, True))
        self.assertTrue(
            os.path.samefile(os.path.join(PLUGINS, *[os.pardir] * 3, "boardnet"), os.path.join(common.TOP, "boardnet"))
        )


class Packed(common.Case):
    def test_archive(self):
        path = self.path("boardnet.zip")
        self.assertEqual(
            self.run_words([os.path.join(FOLDER, "pack"), path, "Ann Example <ann@example.org>", "MIT"])[0], 0
        )
        with zipfile.ZipFile(path) as archive:
            names, data = archive.namelist(), json.loads(archive.read("metadata.json"))
        self.assertEqual(names[0], "metadata.json")
        for name in (
            "plugins/__init__.py",
            "plugins/export.py",
            "plugins/judge.py",
            "plugins/button.py",
            "plugins/icon.png",
            "resources/icon.png",
        ):
            self.assertIn(name, names)
        self.assertEqual(
            (data["author"], data["license"]), ({"name": "Ann Example", "contact": {"email": "ann@example.org"}}, "MIT")
        )
        with open(os.path.join(common.TOOLS, "release"), encoding="ascii") as file:
            self.assertEqual(data["versions"][0]["version"], file.read().strip())

    def test_wrong_words(self):
        self.assertEqual(self.run_words([os.path.join(FOLDER, "pack"), self.path("a.zip"), "Ann", "MIT"])[0], 1)
        self.assertFalse(os.path.exists(self.path("a.zip")))
