"""Forms for continuous integration, and the commands of docs/using/ci.md that can run here, with a stand-in for `kicad-cli`."""
import json
import os
import re
import shutil

from tests.fixtures import common, made

PAGE = os.path.join(common.TOP, "docs", "using", "ci.md")
# What a stand-in for kicad-cli does: the files of a package in the folder that is named, at the command for the netlist.
EXPORT = """#!/bin/sh
echo "$*" >>asked.txt
case "$3" in
  ipcd356) cp {package}/* "${{5%/*}}/"; rm "${{5%/*}}/m.json" ;;
esac
"""


def blocks(kind):
    with open(PAGE, encoding="utf-8") as file:
        return re.findall(rf"^```{kind}\n(.*?)^```$", file.read(), re.M | re.S)


class Recipes(made.Case):
    def setUp(self):
        super().setUp()
        if not shutil.which("make"):
            self.skipTest("there is no make")
        self.path_of = self.path("bin") + os.pathsep + os.environ["PATH"]
        self.write("bin/boardnet", f'#!/bin/sh\nexec {os.path.join(common.TOP, "boardnet")} "$@"\n', 0o755)
        self.write("work/Makefile", blocks("make")[0])
        self.write("work/board.kicad_pcb", "")

    def run_make(self, example, *words):
        self.write("bin/kicad-cli", EXPORT.format(package=os.path.join(common.EXAMPLES, example)), 0o755)
        environment = {"PATH": self.path_of, "BOARDNET": common.program()}
        return self.run_words(["make", "netcheck", *words], self.path("work"), environment=environment)

    def test_makefile(self):
        status, out, notes = self.run_make("two_layer")
        self.assertEqual((status, "PASS " in out), (0, True), out + notes)
        asked = self.read("work/asked.txt").splitlines()
        self.assertEqual(
            [line.split()[:3] for line in asked], [["pcb", "export", what] for what in ("gerbers", "drill", "ipcd356")]
        )
        self.assertTrue(os.path.exists(self.path("work", "netcheck.html")))
        self.assertIn('failures="0"', self.read("work/netcheck.xml"))

    def test_makefile_of_a_faulty_board(self):
        status, out, _ = self.run_make("opens_and_shorts", "FORM=--format github --sarif netcheck.sarif")
        self.assertEqual((status, out.count("\n::error file=fab/n.ipc,line=")), (2, 3), out)
        results = json.loads(self.read("work/netcheck.sarif"))["runs"][0]["results"]
        self.assertEqual([it["ruleId"] for it in results], ["open", "short", "missing"])

    def test_settings_are_those_of_the_guide(self):
        with open(os.path.join(common.TOP, "docs", "using", "exporting.md"), encoding="utf-8") as file:
            guide = re.findall(r"^    kicad-cli (pcb export .*?) -o ", file.read(), re.M)
        recipe = re.findall(r"^\tkicad-cli (pcb export .*?) -o ", blocks("make")[0], re.M)
        self.assertEqual(guide, recipe)

    def test_hook(self):
        entry = re.search(r"^ *entry: (.*)$", "".join(blocks("yaml")), re.M)[1]
        shutil.copytree(os.path.join(common.EXAMPLES, "opens_and_shorts"), self.path("work", "fab"))
        status, out, _ = self.run_words(
            ["sh", "-c", entry], self.path("work"), environment={"PATH": self.path_of, "BOARDNET": common.program()}
        )
        self.assertEqual((status, len(out.splitlines())), (1, 4))


class Forms(made.Case):
    def shown(self, folder, *words):
        return self.run_words([made.SHOW, folder, *words], environment={"BOARDNET": made.STAND_IN})

    def test_signs_of_annotations(self):
        """What the runner reads in a message or a value is escaped, by GitHub's documentation; no line begins with a board's own text."""
        os.makedirs(self.path("::a,b%:"))
        status, out, _ = self.shown("::a,b%:", "--format", "github")
        self.assertEqual(status, 10)
        self.assertTrue(out.startswith("::error title=board::NOT JUDGED ::a,b%25:: "), out)
        self.assertTrue(
            all(line.startswith(("::error title=", "::notice title=boardnet::")) for line in out.splitlines()), out
        )

    def test_wrong_form(self):
        self.assertEqual(self.shown("board", "--format", "xml")[0], 2)

    def test_not_judged(self):
        os.makedirs(self.path("empty"))
        status, out, _ = self.shown("empty", "--sarif", "-")
        run = json.loads(out)["runs"][0]
        self.assertEqual(
            (status, run["invocations"], [it["ruleId"] for it in run["results"]]),
            (10, [{"executionSuccessful": False}], ["board"]),
        )
        self.assertEqual(run["tool"]["driver"]["version"], "0.9")

    def test_several(self):
        for name in ("two_layer", "opens_and_shorts"):
            self.example(name, name)
        status, out, _ = self.run_words(
            [made.SHOW, "two_layer", "opens_and_shorts", "--sarif", "-"], environment={"BOARDNET": common.program()}
        )
        found = [
            it["locations"][0]["physicalLocation"]["artifactLocation"]["uri"]
            for it in json.loads(out)["runs"][0]["results"]
        ]
        self.assertEqual((status, found), (1, ["opens_and_shorts/n.ipc"] * 3))
