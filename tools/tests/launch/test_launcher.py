"""The launcher, over a stand-in for the program that tells where it runs, its words, and an answer that is asked for."""
import os
import shutil
import subprocess

from tests.fixtures import common

STAND_IN = """#!/bin/sh
case $STAND_IN_STATUS in '') ;; *) echo "boardnet: asked for" >&2; exit "$STAND_IN_STATUS" ;; esac
[ -z "$STAND_IN_CALLS" ] || echo asked >>"$STAND_IN_CALLS"
[ -z "$STAND_IN_POINTS" ] || printf 'boardnet 1\\npoints %s\\n' "$STAND_IN_POINTS"
if [ -n "$STAND_IN_TEXT" ]; then cat "$STAND_IN_TEXT"; else printf '%s\\n' "$PWD" "$@" 2>/dev/null; fi
echo "boardnet: agrees" >&2
exit "${STAND_IN_ENDS-0}"
"""
POINT = "P  UNITS CUST 1\n327A                                  A01X+000000Y+000000\n999\n"
NO_POINT = "C no test records\nP  UNITS CUST 1\n999\n"
LOUD = "NOTHING WAS JUDGED"


class Launcher(common.Case):
    def setUp(self):
        super().setUp()
        os.makedirs(self.path("top"))
        shutil.copy(os.path.join(common.TOP, "boardnet"), self.path("top"))
        shutil.copytree(common.TOOLS, self.path("top", "tools"), ignore=shutil.ignore_patterns("tests", "__pycache__"))
        self.write("top/crates.txt", "boardnet:\n")
        self.write("top/crates/boardnet/src/main.rt", "")
        self.write("top/crates/boardnet/out/boardnet", STAND_IN, 0o755)
        self.write("here/there/m.json", '{"copper":["t.gbr"],"drills":[],"netlist":"n.ipc"}')
        self.write("here/there/n.ipc", POINT)
        self.write("here/r.txt", "")
        self.write("here/there/r.txt", "")

    def launch(self, *words, folder="here", **environment):
        return self.run_words([self.path("top", "boardnet"), *words], self.path(folder), environment=environment)

    def test_where_the_program_runs(self):
        here, there = os.path.realpath(self.path("here")), os.path.realpath(self.path("here", "there"))
        self.write("here/-/m.json", "")
        rows = [
            # words, folder, where the program runs, its words
            ("check there/m.json", "here", there, "check m.json"),
            ("check there", "here", there, "check m.json"),
            ("check there/", "here", there, "check m.json"),
            ("check ../here/there/m.json", "here", there, "check m.json"),
            (f"check {there}/m.json", "top", there, "check m.json"),
            ("check m.json", "here/there", there, "check m.json"),
            ("check .", "here/there", there, "check m.json"),
            ("check -", "here", f"{here}/-", "check m.json"),
            ("audit - -/r.txt", "here", f"{here}/-", "audit m.json r.txt"),
            ("check there/m.json 1", "here", there, "check m.json 1"),
            ("check nowhere/m.json", "here", here, "check nowhere/m.json"),
            ("audit there/m.json r.txt", "here", there, f"audit m.json {here}/r.txt"),
            ("audit there there/r.txt", "here", there, "audit m.json r.txt"),
            (f"audit there {here}/r.txt", "here", there, f"audit m.json {here}/r.txt"),
            ("audit m.json ../r.txt", "here/there", there, "audit m.json ../r.txt"),
            ("trial 1 100", "here", here, "trial 1 100"),
            ("write there", "here", there, "write m.json"),
            ("gaps there 100000", "here", there, "gaps m.json 100000"),
            ("flatten there/top.gbr", "here", there, "flatten top.gbr"),
            ("flatten top.gbr", "here", here, "flatten top.gbr"),
            ("x2 there", "here", there, "x2 m.json"),
            ("other there/m.json", "here", here, "other there/m.json"),
            ("check", "here", here, "check"),
        ]
        for words, folder, where, wanted in rows:
            with self.subTest(words=words, folder=folder):
                status, out, _ = self.launch(*words.split(), folder=folder, OLDPWD=self.path("top"))
                self.assertEqual((status, out), (0, "\n".join([where, *wanted.split()]) + "\n"))

    def test_names_with_blanks_and_signs(self):
        self.write("here/a b $(x)/m.json", '{"netlist":"n"}')
        self.write("here/a b $(x)/n", POINT)
        status, out, _ = self.launch("check", "a b $(x)/m.json")
        self.assertEqual((status, out.splitlines()[1:]), (0, ["check", "m.json"]))
        self.assertTrue(out.splitlines()[0].endswith("/a b $(x)"))

    def test_words_that_help(self):
        os.makedirs(self.path("here", "empty"))
        self.write("here/\u00e9/r.txt", "")
        self.write("here/there/only.txt", "")
        rows = [
            (["check", "empty"], "empty has no m.json; `boardnet manifest empty` writes one"),
            (["audit", "there", "\u00e9/r.txt"], "is no name of at most 200 printable ASCII characters"),
            (["audit", "there", "only.txt"], "only.txt is looked for in "),
            (["audit", "there", "x" * 201], "is no name of at most 200 printable ASCII characters"),
        ]
        for words, wanted in rows:
            with self.subTest(words=words):
                self.assertIn(wanted, self.launch(*words)[2])

    def test_status_and_lines_stay(self):
        for status in ("1", "2", "3", "4", "5", "6", "7"):
            for words in (["check", "there"], ["audit", "there", "r.txt"], ["trial", "1", "2"]):
                self.write("here/there/n.ipc", NO_POINT)
                said = self.launch(*words, STAND_IN_STATUS=status)
                self.assertEqual(said, (int(status), "", "boardnet: asked for\n"))

    def test_nothing_judged(self):
        """A yes about no test point is known by the report, which the program is asked for once, and which a pipe gives once."""
        os.mkfifo(self.path("here", "pipe"))
        rows = [
            # words, points of the report, what the program answers, what is said
            (["check", "there"], "2", "0", ""),
            (["check", "there"], "10", "0", ""),
            (["check", "there"], "0", "0", f"{LOUD}: m.json names a netlist without test points"),
            (
                ["check", "there"],
                "1",
                "0",
                f"{LOUD}: there is one test point alone, so this yes says nothing about the board",
            ),
            (["check", "there"], "1", "1", ""),
            (
                ["check", "there"],
                "3\nnames 1\nname 0 N/C",
                "0",
                f"{LOUD}: all test points are without net (N/C), so this yes says nothing about the board",
            ),
            (["check", "there"], "3\nnames 2\nname 0 N/C", "0", ""),
            (["check", "there"], "3\nnames 1\nname 0 N/CX", "0", ""),
            (["between", "m.json", "l.json", "u.json", "c.txt"], "2\ncertain", "0", ""),
            (
                ["between", "m.json", "l.json", "u.json", "c.txt"],
                "1\ncertain",
                "0",
                f"{LOUD}: there is one test point alone",
            ),
            (
                ["between", "m.json", "l.json", "u.json", "c.txt"],
                "0\ncertain",
                "0",
                f"{LOUD}: m.json names a netlist without test points",
            ),
            (["check", "there"], "0", "3", ""),
            (["x2", "there"], "2", "0", ""),
            (["x2", "there"], "1", "0", f"{LOUD}: there is one test point alone"),
            (["x2", "there"], "0", "0", f"{LOUD}: no copper file of m.json has a net label"),
            (["audit", "there", "r.txt"], "2", "0", ""),
            (["audit", "there", "r.txt"], "1", "0", f"{LOUD}: there is one test point alone"),
            (["audit", "there", "r.txt"], "3\nnames 1\nname 0 N/C", "0", f"{LOUD}: all test points are without net"),
            (["audit", "there", "r.txt"], "0", "0", f"{LOUD}: m.json names a netlist without test points"),
            (["audit", "there", "r.txt"], "0", "1", ""),
            (["audit", "there", "pipe"], "1", "0", "look at the line `points` of the text"),
            (["audit", "there", "pipe"], "1", "1", ""),
            (["trial", "1", "2"], "2", "0", ""),
            (
                ["trial", "1", "2"],
                "0",
                "0",
                f"{LOUD}: the made board has no test point, so this yes says nothing about the board",
            ),
        ]
        for words, points, status, said in rows:
            with self.subTest(words=words, points=points, status=status):
                self.write("here/r.txt", f"boardnet 2\nname 0 points 0\npoints {points}\nagrees\n")
                self.write("calls", "")
                told, out, notes = self.launch(
                    *words, STAND_IN_POINTS=points, STAND_IN_ENDS=status, STAND_IN_CALLS=self.path("calls")
                )
                self.assertEqual(
                    (told, out.splitlines()[1], self.read("calls")),
                    (int(status), f"points {points}".split("\n")[0], "asked\n"),
                )
                lines = notes.splitlines()
                self.assertEqual((lines[0], len(lines)), ("boardnet: agrees", 2 if said else 1))
                self.assertIn(said, notes)

    def test_an_end_that_is_not_known(self):
        """Where what runs the program is gone before it can say how that ended, nothing is taken for a yes."""
        self.write("top/crates/boardnet/out/boardnet", "#!/bin/sh\nkill -9 $PPID\necho boardnet: agrees >&2\n", 0o755)
        for words in (["check", "there"], ["x2", "there"], ["between", "a", "b", "c", "d"]):
            status, _, notes = self.launch(*words)
            self.assertEqual((status, "is no answer on the board" in notes), (70, True), notes)

    def test_several_names(self):
        """x2 takes the first name of an object alone, which is said of each copper file that has more."""
        told = "t.gbr has objects of several nets (TO.N,GND,AGND), of which x2 takes the first name alone"
        for text, is_told in (
            ("%TO.N,GND,AGND*%", True),
            ("%TO.N,GND*%\n%TO.P,U1,1*%", False),
            ("%TO.N,GND,*%", False),
            ("%TO.N,*%", False),
            ("", False),
        ):
            self.write("here/there/t.gbr", text)
            for status in ("0", "1", "3"):
                done, _, notes = self.launch("x2", "there", STAND_IN_POINTS="2", STAND_IN_ENDS=status)
                self.assertEqual(
                    (done, told in notes, len(notes.splitlines())),
                    (int(status), is_told and status != "3", 1 + (is_told and status != "3")),
                    notes,
                )
        self.write("here/there/t.gbr", "%TO.N,GND,AGND*%")
        self.assertNotIn("several nets", self.launch("check", "there", STAND_IN_POINTS="2")[2])

    def test_what_passes_by_is_not_changed(self):
        """Every byte, also behind the last line feed, and of a text of megabytes."""
        for text in ("", "points 01", "a\n\n\x01\x80b", "points 0\r\nx", "line of a report\n" * 200_000):
            self.write("text", text)
            done = subprocess.run(
                [self.path("top", "boardnet"), "check", "there"],
                env=dict(os.environ, STAND_IN_TEXT=self.path("text")),
                cwd=self.path("here"),
                stdout=subprocess.PIPE,
                stderr=subprocess.PIPE,
            )
            self.assertEqual(
                (done.returncode, done.stdout == text.encode(), done.stderr), (0, True, b"boardnet: agrees\n")
            )

    def test_output_that_cannot_be_written(self):
        for words in ("check there >/dev/full", "x2 there >/dev/full"):
            told = self.run_words(
                ["sh", "-c", f"'{self.path('top', 'boardnet')}' {words}"],
                self.path("here"),
                environment={"STAND_IN_POINTS": "0"},
            )
            self.assertEqual(told, (5, "", "boardnet: output cannot be written\n"))
        # Where it is closed the program is asked as it is.
        status, _, notes = self.run_words(
            ["sh", "-c", f"'{self.path('top', 'boardnet')}' check there >&-"], self.path("here")
        )
        self.assertIn("boardnet: agrees", notes)
        # A text goes behind what a file has already.
        self.run_words(
            ["sh", "-c", f"{{ echo before; '{self.path('top', 'boardnet')}' check there; echo behind; }} >out.txt"],
            self.path("here"),
        )
        lines = self.read("here/out.txt").splitlines()
        self.assertEqual(
            (lines[0], lines[2:], lines[1].endswith("there")), ("before", ["check", "m.json", "behind"], True)
        )

    def test_help(self):
        status, out, _ = self.launch("--help")
        self.assertEqual(status, 0)
        for command in (
            "check",
            "audit",
            "trial",
            "write",
            "flatten",
            "x2",
            "gaps",
            "between",
            "manifest",
            "show",
            "install",
            "package",
        ):
            self.assertIn(f"  boardnet {command} ", out)
            for words in ([command, "--help"], ["help", command], [command, "-h"]):
                status, page, _ = self.launch(*words)
                self.assertEqual((status, page.split()[:2]), (0, ["boardnet", command]))
                self.assertEqual(
                    "\nMANIFEST is a JSON file" in page, command in ("check", "audit", "write", "x2", "gaps", "between")
                )
        self.assertIn("  6  out of memory\n", out)
        self.assertEqual(self.launch("other", "--help")[1].splitlines()[1:], ["other", "--help"])

    def test_version(self):
        status, out, _ = self.launch("--version")
        lines = out.splitlines()
        self.assertEqual(
            (status, [line.split()[0] for line in lines]), (0, ["boardnet", "commit", "toolchain", "sources"])
        )

    def test_no_toolchain(self):
        os.remove(self.path("top", "crates", "boardnet", "out", "boardnet"))
        tools = self.path("bin")
        os.makedirs(tools)
        for name in ("sh", "readlink", "dirname", "find", "env", "git"):
            os.symlink(shutil.which(name), os.path.join(tools, name))
        status, out, notes = self.launch("check", "there", PATH=tools)
        self.assertEqual((status, out), (127, ""))
        self.assertIn("rt is not on the PATH", notes)
        with open(os.path.join(common.TOOLS, "toolchain")) as file:
            self.assertIn(file.read().strip(), notes)
        self.assertEqual(self.launch("show", "there", PATH=tools, BOARDNET="")[0], 127)
        self.assertEqual(self.launch("show", "--help")[0], 0)

    def test_show_runs_the_program(self):
        status, out, _ = self.launch("show", "there", BOARDNET="")
        self.assertEqual((status, "NOT JUDGED there: a line of the report is missing or broken" in out), (12, True))
        status, out, _ = self.launch("show", "there", BOARDNET="", STAND_IN_STATUS="6")
        self.assertEqual((status, out), (6, "NOT JUDGED there: asked for.\n"))

    def test_tools_want_python(self):
        tools = self.path("bin")
        os.makedirs(tools)
        for name in ("sh", "readlink", "dirname", "find"):
            os.symlink(shutil.which(name), os.path.join(tools, name))
        status, _, notes = self.launch("manifest", "there", PATH=tools)
        self.assertEqual((status, "wants Python 3.8" in notes), (127, True))


class Program(common.Case):
    """The same front over the built program."""

    def test_examples(self):
        program = common.program()
        top = self.path("top")
        shutil.copytree(common.TOOLS, os.path.join(top, "tools"), ignore=shutil.ignore_patterns("tests", "__pycache__"))
        shutil.copy(os.path.join(common.TOP, "boardnet"), top)
        self.write("top/crates.txt", "boardnet:\n")
        os.makedirs(os.path.join(top, "crates", "boardnet", "out"))
        shutil.copy(program, os.path.join(top, "crates", "boardnet", "out", "boardnet"))
        launcher = os.path.join(top, "boardnet")
        for name in ("two_layer", "touching_discs", "four_layers", "round_board"):
            folder = self.example(name, name)
            status, report, notes = self.run_words([launcher, "check", name])
            self.assertEqual((status, notes), (0, "boardnet: agrees\n"))
            self.write("mine.txt", report)
            self.assertEqual(self.run_words([launcher, "audit", f"{name}/m.json", "mine.txt"])[:2], (0, "audit true\n"))
            with open(os.path.join(folder, "m.json")) as file:
                self.write(f"{name}/silent.json", file.read().replace("n.ipc", "silent").replace("n.d356", "silent"))
            self.write(f"{name}/silent", NO_POINT)
            status, report, notes = self.run_words([launcher, "check", f"{name}/silent.json"])
            self.assertEqual((status, notes.splitlines()[0], LOUD in notes), (0, "boardnet: agrees", True))
            self.write("mine.txt", report)
            status, _, notes = self.run_words([launcher, "audit", f"{name}/silent.json", "mine.txt"])
            self.assertEqual((status, notes.splitlines()[0], LOUD in notes), (0, "boardnet: audit true", True))
