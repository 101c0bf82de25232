"""How scripts start: a Python that is old, broken or lacks modules, and parts that cannot be loaded, give one line and no status of a judgement."""
import os
import shutil
import sys

from tests.fixtures import common, made
from tests.fixtures.made import flash, gerber, manifest, netlist, record

BOARD = {
    "m.json": manifest(),
    "top.gbr": gerber(*flash(10, (0, 0), (5, 0))),
    "n.ipc": netlist(record("A", "J1.1", 0, 0), record("B", "J1.2", 5, 0)),
}
LACKS = "raise ImportError('No module named this')\n"
# What a module of the library is instead, and the status.
BROKEN = (
    (LACKS, 127),
    ("x = (\n", 70),
    ("import sys\nsys.exit(1)\n", 70),
    ("import sys\nsys.exit(0)\n", 70),
    ("1 / 0\n", 70),
    ("a\0b", 70),
)


class Start(made.Case):
    def started(self, *words, **environment):
        """Status and notes of a script, which says one line."""
        environment = {"BOARDNET": made.STAND_IN, "XDG_CACHE_HOME": self.path("cache"), **environment}
        status, out, notes = self.run_words([sys.executable, "-S", *words], environment=environment)
        self.assertEqual((out, notes.count("\n"), notes.startswith("boardnet: ")), ("", 1, True), (out, notes))
        return status, notes

    def test_broken_modules(self):
        self.board(BOARD)
        for text, wanted in BROKEN:
            self.write("library/json.py", text)
            for script, words in (("show", ["board"]), ("manifest", ["board"])):
                status, notes = self.started(
                    os.path.join(common.TOOLS, script), *words, PYTHONPATH=self.path("library")
                )
                self.assertEqual(status, wanted, notes)

    def test_modules_that_lack(self):
        """What is loaded late, too; a module that is not wanted is not missed."""
        self.board(BOARD)
        self.write("board.zip", "PK")
        rows = [
            ("subprocess", ["board"], 127),
            ("re", ["board"], 127),
            ("signal", ["board"], 127),
            ("argparse", ["--page=x", "board"], 127),
        ]
        for module, words, wanted in rows:
            shutil.rmtree(self.path("library"), ignore_errors=True)
            self.write(f"library/{module}.py", LACKS)
            self.assertEqual(
                self.started(os.path.join(common.TOOLS, "show"), *words, PYTHONPATH=self.path("library"))[0],
                wanted,
                module,
            )
        self.write("library/zipfile.py", LACKS)
        status, out, _ = self.show("board.zip", PYTHONPATH=self.path("library"))
        self.assertNotIn(status, (0, 1, 11, 12), out)

    def test_parts_of_our_own(self):
        """A module of ours that is broken, and one that is not there."""
        self.board(BOARD)
        shutil.copytree(common.TOOLS, self.path("tools"), ignore=shutil.ignore_patterns("tests", "__pycache__"))
        for name, text, wanted in (
            ("boardnet_show/output/text_lines.py", "def (", 70),
            ("boardnet_show/output/text_lines.py", "", 70),
            ("boardnet_show/output/text_lines.py", None, 70),
            ("start.py", "x = (", 70),
            ("start.py", None, 70),
        ):
            whole = self.read(f"tools/{name}")
            os.remove(self.path("tools", name)) if text is None else self.write(f"tools/{name}", text)
            self.assertEqual(self.started(self.path("tools", "show"), "board")[0], wanted, name)
            self.write(f"tools/{name}", whole)

    def test_python_itself(self):
        """By the launcher: a python3 that does not start, and an old one; before a build, too."""
        top = self.path("top")
        shutil.copytree(common.TOOLS, os.path.join(top, "tools"), ignore=shutil.ignore_patterns("tests", "__pycache__"))
        shutil.copy(os.path.join(common.TOP, "boardnet"), top)
        self.write("top/crates.txt", "boardnet:\n")
        self.write("top/crates/boardnet/src/main.rt", "")
        self.write("bin/rt", "#!/bin/sh\nexit 0\n", 0o755)
        for python in (
            "echo 'Fatal Python error: init_fs_encoding' >&2; exit 1",
            "case $* in *version_info*) exit 1 ;; esac; exit 0",
        ):
            self.write("bin/python3", f"#!/bin/sh\n{python}\n", 0o755)
            for command in ("show", "manifest", "check", "install"):
                done = self.run_words(
                    [os.path.join(top, "boardnet"), command, "board"],
                    environment={"PATH": f"{self.path('bin')}:{os.environ['PATH']}", "BOARDNET": made.STAND_IN},
                )
                self.assertEqual((done[0], done[1], done[2].count("\n")), (127, "", 1), done)
        self.assertIn("the python3 on the PATH is older or does not start", done[2])
