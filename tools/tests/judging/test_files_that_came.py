"""What is said to be proved of the files as they came, where copies of them were judged."""
import json
import os
import subprocess
import unittest

from boardnet_show.base.progress import Progress
from boardnet_show.base.refusals import of_line
from boardnet_show.base.statuses import REFUSED, Stop
from boardnet_show.formats.manifest import Manifest, of_text
from boardnet_show.intake.mends.mend import Mended
from boardnet_show.intake.mends.table import CONTOUR
from boardnet_show.intake.package import Package
from boardnet_show.judging import between_command, files_that_came, judged
from boardnet_show.judging.answers import AskedOn, OfFiles
from boardnet_show.judging.net_ties import Ties
from boardnet_show.judging.program import Answer, Program
from tests.fixtures import made
from tests.fixtures.made import STAND_IN, draw, drill, flash, gerber, manifest, netlist, record

A, B = record("A", "J1.1", 0, 0), record("A", "J2.1", 5, 0)
LINES = [*draw(10, (0, 0), (5, 0))]
# Not in the profile, and of no copper: a mend leaves it out, and the program's `between` reads it.
UNUSED = "%ADD19C,1.0X0.5*%"


class Listening(Program):
    """The stand-in, which answers `between` as it is told, and keeps what it was asked on."""

    def __init__(self, *answers):
        super().__init__(STAND_IN, Progress(None))
        self.answers, self.read = list(answers), []

    def between(self, package, *names):
        lower, upper = (of_text(package.read(name)) for name in names[:2])
        self.read.append(
            ({name: package.read(name) for name in package.manifest.names()}, lower, upper, package, names)
        )
        return self.answers.pop(0)


def refused(line):
    return Answer(REFUSED, b"", line, of_line(line))


class Asked(made.Case):
    """What the program is asked on."""

    def setUp(self):
        super().setUp()
        self.came = {"top.gbr": gerber("%LN*%", *LINES), "p.drl": "M48 as it came", "n.ipc": netlist(A, B)}
        for name, text in self.came.items():
            self.write(f"home/{name}", text)
        os.makedirs(self.path("board"))
        self.package = Package(of_text(manifest(drills=[("p.drl", 1, 1)]).encode()), self.path("board"))
        for name in self.came:
            self.package.link(name, self.path(f"home/{name}"))
        self.package.put("top.gbr", gerber(*LINES).encode())
        self.package.put("p.drl", drill((0, 0)).encode())
        self.package.put("m.json", self.package.manifest.json_text().encode())
        self.judged = judged.judge(Program(STAND_IN, Progress(None)), self.package)
        decision = between_command.Decision(self.judged, self.judged)
        lines = [*decision.heads(), *decision.findings(), "agrees", ""]
        self.agrees = Answer(0, "\n".join(lines).encode(), "")

    def told(self, program, declared=()):
        answer = Ties().answer(self.judged)
        return between_command.exact(program, self.judged, answer, Ties(), declared)

    def test_files_and_copies(self):
        """The files as they came are the board, and the copies both boards; where none is a copy nothing is asked."""
        program = Listening(self.agrees)
        its = self.told(program).of_files
        files, lower, upper, asked, names = program.read[0]
        self.assertEqual(
            its, OfFiles(True, ("top.gbr", "p.drl"), (), "", AskedOn(asked.folder, ("m.json", *names), "between.txt"))
        )
        self.assertEqual({name: text.decode() for name, text in files.items()}, self.came)
        self.assertEqual((names[0], lower.netlist, lower.names()), (names[1], "n.ipc", upper.names()))
        self.assertEqual(
            [asked.read(name) for name in lower.files], [self.package.read(name) for name in ("top.gbr", "p.drl")]
        )
        self.assertEqual(asked.read(names[2]), b"boardnet-bounds 1\n" + b"1 1\n" * self.judged.report.pieces)
        for name in ("top.gbr", "p.drl"):
            os.remove(self.package.path(name))
            self.package.link(name, self.path(f"home/{name}"))
        self.assertIsNone(self.told(Listening()).of_files)

    def test_files_that_are_not_read(self):
        """A file that is refused stands as its copy, and no other; what is refused of a copy ends it."""
        drills = refused("p.drl: drill 6 ImpliedDecimals at line 3, byte 9")
        copper = refused("top.gbr: Gerber 12 Macro at command 3, byte 9")
        program = Listening(drills, self.agrees)
        its = self.told(program).of_files
        self.assertEqual((its.is_proved, its.read, its.but_for), (True, ("top.gbr",), ("p.drl",)))
        files = program.read[-1][0]
        self.assertEqual((files["top.gbr"].decode(), files["p.drl"].decode()), (self.came["top.gbr"], drill((0, 0))))
        its = self.told(Listening(drills, copper, self.agrees)).of_files
        self.assertEqual((its.is_proved, its.read, its.but_for), (True, (), ("top.gbr", "p.drl")))
        for line in ("n.ipc: netlist 5 BadName at line 2, byte 3", "judged.gbr: Gerber 12 Macro at command 3, byte 9"):
            its = self.told(Listening(drills, refused(line))).of_files
            self.assertEqual((its.is_proved, its.read, its.but_for, its.why), (False, ("top.gbr",), ("p.drl",), line))

    def test_a_long_contour(self):
        """A file with one is known to be refused, so that it is not read once more for that."""
        self.package.mends = [Mended("top.gbr", 9, CONTOUR, "")]
        program = Listening(self.agrees)
        its = self.told(program).of_files
        self.assertEqual((its.read, its.but_for, len(program.read)), (("p.drl",), ("top.gbr",), 1))

    def test_what_is_declared(self):
        """A file that a declaration changes is never said to be read as it came."""
        its = self.told(Listening(self.agrees), ["p.drl"]).of_files
        self.assertEqual((its.is_proved, its.read, its.but_for), (True, ("top.gbr",), ("p.drl",)))

    def test_other_answers(self):
        """Copies that are no bounds of the files prove nothing; where `between` finds otherwise nothing is judged."""
        line = "m.json: file 0, command 4, copy 0: not bounded below"
        its = self.told(Listening(refused(line))).of_files
        self.assertEqual((its.is_proved, its.why), (False, line))
        for text in (
            self.agrees.out.replace(b"agrees", b"differs"),
            self.agrees.out.replace(b"opens 0", b"opens 1"),
            b"",
        ):
            with self.assertRaisesRegex(Stop, "^`between` "):
                self.told(Listening(Answer(0, text, "")))


class Shown(made.Case):
    """What `show` says by the program itself."""

    def setUp(self):
        super().setUp()
        self.program = made.built()
        if not self.program:
            raise unittest.SkipTest("there is no built program; BOARDNET names one")
        self.board({"m.json": manifest(), "top.gbr": gerber(UNUSED, *LINES), "n.ipc": netlist(A, B)})

    def test_said(self):
        status, out, _ = self.show("board", "-q", program=self.program)
        self.assertEqual((status, "after 1 mend, proved of the files as they came" in out), (0, True), out)
        self.write("board/top.gbr", gerber(UNUSED, *flash(10, (0, 0), (5, 0))))
        status, out, _ = self.show("board", "--json", "-", program=self.program)
        its = json.loads(out)["boards"][0]["files_as_they_came"]
        self.assertEqual((status, its), (1, {"proved": True, "read": ["top.gbr"], "but_for": [], "why": ""}))

    def test_kept(self):
        """What is kept is asked again by the program alone, with the same answer, on the file as it came."""
        self.show("board", "-q", "--keep", "kept", "--record", "record.json", program=self.program)
        folder = self.path("kept/between")
        told = subprocess.run(
            [self.program, "between", "m.json", "judged.json", "judged.json", "counts.txt"], cwd=folder, stdout=-1
        )
        self.assertEqual((told.returncode, told.stdout.decode()), (0, self.read("kept/between/between.txt")))
        self.assertEqual(self.read("kept/between/top.gbr"), self.read("board/top.gbr"))
        its = json.loads(self.read("record.json"))["between"]
        told = [self.read(f"kept/between/{name}.txt") for name in ("counts", "between")]
        self.assertEqual((its["words"][-1], [its["counts"], its["text"]]), ("counts.txt", told))
