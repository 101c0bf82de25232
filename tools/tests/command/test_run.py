"""The command whole: its statuses, a batch, what it writes and where, and that an interrupted run leaves nothing behind."""
import io
import json
import os
import signal
import subprocess
import sys
import tempfile
import time
import unittest
import zipfile
from unittest import mock
from xml.dom import minidom

from boardnet_show.base import workers
from boardnet_show.base.progress import Progress
from boardnet_show.command.run import SIGNALS
from boardnet_show.formats import indented_json
from boardnet_show.formats.manifest import of_text
from boardnet_show.intake.package import Package
from boardnet_show.judging import two_bounds
from boardnet_show.output.sentences import made_first
from tests.fixtures import common, made
from tests.fixtures.common import SURE
from tests.fixtures.made import draw, flash, gerber, label, manifest, netlist, record
from tests.fixtures.pages import unpacked

PADS = [*flash(10, (0, 0), (10, 0), (0, 5), (3, 5))]
GOOD = {
    "m.json": manifest(),
    "top.gbr": gerber(*PADS, *draw(11, (0, 0), (10, 0)), *draw(11, (0, 5), (3, 5))),
    "n.ipc": netlist(
        record("GND", "J1.1", 0, 0),
        record("GND", "U1.8", 10, 0),
        record("SIG", "J1.2", 0, 5),
        record("SIG", "R1.2", 3, 5),
    ),
}
# GND and VCC are joined by a track, SIG is in two parts, one point of SIG has no copper.
BAD = {
    **GOOD,
    "top.gbr": gerber(*PADS, *draw(11, (0, 0), (10, 0))),
    "n.ipc": netlist(
        record("GND", "J1.1", 0, 0),
        record("VCC", "U1.8", 10, 0),
        record("SIG", "J1.2", 0, 5),
        record("SIG", "R1.2", 3, 5),
        record("SIG", "</b>.", -0.5, 9.999),
    ),
}
QUIET = """\
board: differs, opens 1, shorts 1, missing 1
board/n.ipc:5: open-0: R1 pin 2 (the one layer, 3.000, 5.000 mm) is not joined to J1 pin 2 (the one layer, 0.000, 5.000 mm), 3.000 mm away; \
SIG is in 2 parts, here R1 pin 2, there J1 pin 2. Suggestion: their copper comes nearest, 2.000 mm, on the one layer (top.gbr) at 1.500, 5.000 mm.
board/n.ipc:2: short-0: GND and VCC are joined, it seems on the one layer (top.gbr) at 5.000, 0.000 mm: GND has J1 pin 1 (the one layer, 0.000, 0.000 mm) and VCC has U1 pin 8 (the one layer, 10.000, 0.000 mm). \
Suggestion: GND and VCC meet on the one layer (top.gbr) at 5.000, 0.000 mm; top.gbr command 13 could belong to either, between top.gbr command 7 and top.gbr command 8.
board/n.ipc:6: missing-0: no copper of top.gbr lies under </b> (the one layer, -0.500, 9.999 mm), of SIG.
"""
READER = f"""\
FAIL board: 1 open, 1 short and 1 test point without copper. {SURE}
SIG
  open-0: R1 pin 2 """
MACRO = "%AMRound*\n1,1,1.0,0,0*%\n%ADD13Round*%\n"


class Told(unittest.TestCase):
    """How far it is, on a terminal and elsewhere."""

    class Out(io.StringIO):
        def __init__(self, is_terminal):
            super().__init__()
            self.isatty = lambda: is_terminal

    def told(self, is_terminal, quiet=False):
        out = self.Out(is_terminal)
        progress = Progress(out, quiet)
        progress.begin("checking")
        progress.started -= 75
        progress.tell()
        progress.end()
        progress.end()
        return out.getvalue()

    def test_progress(self):
        first, second, last = "boardnet: checking, 0 s", "boardnet: checking, 75 s", "\r" + " " * 24 + "\r"
        self.assertEqual(self.told(True), f"\r{first}\r{second}{last}")
        self.assertEqual((self.told(True, quiet=True), self.told(False)), ("", ""))

    def test_how_far(self):
        """Each layer of which bounds are made is told with their count, also where processes make them."""
        copper = gerber("%AMTurned*21,1,1,0.5,0,0,30*%", "%ADD13Turned*%", "D13*", "X0Y0D03*").encode()
        names = ["a.gbr", "b.gbr", "c.gbr"]
        for count in (1, 3):
            with tempfile.TemporaryDirectory() as folder:
                files = {"m.json": manifest(names), "n.ipc": netlist(record("A", "J1.1", 0, 0))}
                for name, text in (*files.items(), *((name, copper) for name in names)):
                    with open(os.path.join(folder, name), "wb") as file:
                        file.write(text if isinstance(text, bytes) else text.encode())
                package = Package(of_text(files["m.json"].encode()), folder)
                out = self.Out(True)
                with mock.patch.multiple(workers, processors=lambda: count, LARGE=1):
                    two_bounds.of_package(package, told=Progress(out).step)
            lines = [line.rpartition(",")[0] for line in out.getvalue().split("\r")[1:]]
            self.assertEqual(lines, [f"boardnet: making bounds, layer {k} of 3" for k in (1, 2, 3)])

    def test_json_with_an_indent(self):
        """As the standard library writes it."""
        value = {
            "a": [],
            "b": {},
            "": [1, -2, 0.1, 1e-07, True, None, '\u00e9\U0001f600 \n"\\', [[()], ({"x": [{"y": (1, 2)}]},)]],
            "c": {"d": False},
        }
        for it in (value, [], {}, "x", [value, value]):
            self.assertEqual(indented_json.indented(it), json.dumps(it, indent=1))


class Answers(made.Case):
    def test_lines(self):
        self.board(BAD)
        self.assertEqual(self.show("-q", "board"), (1, QUIET, ""))
        status, out, notes = self.show("board")
        self.assertEqual((status, out.startswith(READER), notes), (1, True, ""))
        self.assertIn("SIG\n  open-0: ", out)
        self.assertEqual(self.show("board/m.json", "-q")[1], QUIET.replace("board: ", "board/m.json: "))

    def test_statuses(self):
        rows = [
            # what is changed, status, what the line has
            ({}, 0, f"PASS board: copper and the netlist agree at all 4 test points. {SURE}"),
            ({"m.json": "{"}, 3, "NOT JUDGED board: m.json is not JSON: "),
            ({"m.json": "{}"}, 3, "NOT JUDGED board: m.json is not a manifest: "),
            ({"top.gbr": "%FSLAX46Y46*%\n"}, 3, "NOT JUDGED board: top.gbr, line 2: the file ends too early: "),
            ({"m.json": manifest(["lost.gbr"])}, 4, "NOT JUDGED board: lost.gbr is not there, or "),
            ({"n.ipc": netlist()}, 12, "NOT JUDGED board: the netlist has no test point"),
        ]
        for number, (files, status, line) in enumerate(rows):
            with self.subTest(line=line):
                folder = self.board({**GOOD, **files}, f"row{number}/board")
                told = self.show("board", folder=os.path.dirname(self.path(folder)))
                self.assertEqual((told[0], told[1].startswith(line), told[2]), (status, True, ""), told)

    def test_what_the_program_fails_with(self):
        self.board(GOOD)
        for status in (2, 3, 4, 5, 6):
            program = self.write(f"fails{status}", f"#!/bin/sh\necho 'boardnet: asked for' >&2\nexit {status}\n", 0o755)
            self.assertEqual(self.show("board", program=program), (status, "NOT JUDGED board: asked for.\n", ""))
        program = self.write("dies", "#!/bin/sh\nkill -9 $$\n", 0o755)
        self.assertEqual(self.show("board", program=program)[0], 127)
        lies = self.write(
            "lies",
            f'#!/bin/sh\n[ $1 != audit ] || {{ echo "audit untrue 4"; exit 1; }}\nexec {made.STAND_IN} "$@"\n',
            0o755,
        )
        status, out, _ = self.show("board", program=lies)
        self.assertEqual(
            (status, out), (12, "NOT JUDGED board: `audit` does not confirm the report of `check`: audit untrue 4.\n")
        )
        broken = self.write("broken", "#!/bin/sh\necho 'boardnet 2'; echo 'boardnet: agrees' >&2\n", 0o755)
        self.assertEqual(self.show("board", program=broken)[0], 12)

    def test_words(self):
        self.board(GOOD)
        for words in (
            [],
            ["--nonsense", "board"],
            ["board", "board", "--svg", "p.svg"],
            ["board", "board", "--page", "-"],
            ["board", "--at", "short-0"],
        ):
            status, out, notes = self.show(*words)
            self.assertEqual((status, out, notes.startswith("usage: boardnet show PATH..")), (2, "", True))
        for word in ("--help", "-h"):
            status, out, _ = self.show(word)
            self.assertEqual(
                (status, out.startswith("boardnet show PATH.. [OPTION ..]\ntells what is wrong")), (0, True)
            )
        self.assertEqual(
            self.show("nowhere")[:2], (4, "NOT JUDGED nowhere: cannot be read: No such file or directory.\n")
        )
        os.makedirs(self.path("odd", "m.json"))
        self.assertEqual(self.show("odd")[:2], (4, "NOT JUDGED odd: m.json: cannot be read: Is a directory.\n"))
        # Nothing is judged by another netlist than the one that is asked for.
        self.assertEqual(self.show("board", "--netlist", "n.ipc")[0], 0)
        self.assertEqual(
            self.show("board", "--netlist", "other.ipc")[:2],
            (2, "NOT JUDGED board: --netlist other.ipc: m.json names n.ipc, so have it name the other.\n"),
        )

    def test_folder_without_a_manifest(self):
        files = {**GOOD, "top.gbr": "%TF.FileFunction,Copper,L1,Top*%\n" + GOOD["top.gbr"], "notes.txt": "hello"}
        files.pop("m.json")
        self.board(files)
        status, out, _ = self.show("board")
        self.assertEqual(
            (status, out),
            (
                0,
                f"PASS board: copper and the netlist agree at all 4 test points. {SURE}\nleft out, 1 of the folder's files: notes.txt: it is no Gerber, drill or IPC-D-356A file\n",
            ),
        )
        self.assertEqual(sorted(os.listdir(self.path("board"))), ["n.ipc", "notes.txt", "top.gbr"])
        with zipfile.ZipFile(self.path("board.zip"), "w") as archive:
            for name in files:
                archive.write(self.path("board", name), f"inner/{name}")
        self.assertEqual(self.show("board.zip", "-q")[:2], (0, "board.zip: agrees\n"))
        self.assertEqual(sorted(os.listdir(self.scratch)), ["board", "board.zip"])

    def test_unclear(self):
        files = {name: text for name, text in GOOD.items() if name != "m.json"}
        self.board(files)
        status, out, _ = self.show("board")
        self.assertEqual(
            (status, "say --yes" in out, "would be taken: top.gbr as copper layer 1" in out), (10, True, True)
        )
        status, out, _ = self.show("board", "--yes")
        self.assertEqual((status, out.splitlines()[1].startswith("taken as top.gbr as copper layer 1")), (0, True))
        self.write("board/n.ipc", "no netlist")
        status, out, _ = self.show("board")
        self.assertEqual((status, "there is no IPC-D-356A netlist" in out, "left out" in out), (10, True, True))
        self.write("broken.zip", b"PK\x05\x06" + bytes(18))
        self.assertEqual(self.show("broken.zip")[0], 10)
        self.write("cut.zip", b"PK\x03\x04" + bytes(18))
        status, out, _ = self.show("cut.zip")
        self.assertEqual((status, "is no zip archive that can be opened" in out), (10, True))

    def test_batch(self):
        for folder, files in (("good", GOOD), ("bad", BAD), ("refused", {**GOOD, "top.gbr": "%FSLAX46Y46*%\n"})):
            self.board(files, folder)
        right = f"PASS good: copper and the netlist agree at all 4 test points. {SURE}\n"
        self.assertEqual(self.show("good", "good")[:2], (0, f"{right}{right}2 boards: 2 pass\n"))
        self.assertEqual(self.show("good", "good", "-q")[:2], (0, "good: agrees\ngood: agrees\n2 boards: 2 agree\n"))
        status, out, _ = self.show("bad", "good", "--json", "all.json")
        self.assertEqual(
            (status, out),
            (
                1,
                f"FAIL bad: 1 open, 1 short and 1 test point without copper. {SURE}\n{right}"
                "2 boards: 1 passes, 1 fails\n",
            ),
        )
        self.assertEqual([board["status"] for board in json.loads(self.read("all.json"))["boards"]], [1, 0])
        status, out, _ = self.show("good", "bad", "refused", "nowhere")
        self.assertEqual(
            (status, len(out.splitlines()), out.splitlines()[-1]),
            (3, 5, "4 boards: 1 passes, 1 fails, 2 are not judged"),
        )

    def test_macros_are_flattened(self):
        lines = [*label("GND"), *flash(10, (0, 0)), MACRO, *flash(13, (10, 0)), *draw(11, (0, 0), (10, 0))]
        self.board({**BAD, "top.gbr": gerber(*lines, *flash(10, (0, 5), (3, 5)))})
        status, out, _ = self.show("board", "--keep", "kept")
        self.assertEqual(status, 1)
        self.assertIn("Judged on a copy of top.gbr, rewritten to say the same in simpler words.", out.split("\n")[0])
        self.assertIn("1 note on rewritten files: --all prints it\n", out)
        self.assertIn("top.gbr command ", out)
        self.assertIn("%FSLAX47Y47*%", self.read("kept/top.gbr"))
        self.assertTrue(self.read("kept/report.txt").startswith("boardnet 2\n"))
        self.assertEqual(self.show("board", "--keep", "kept")[0], 5)
        self.assertIn("AMRound", self.read("board/top.gbr"))
        status, out, _ = self.show("board", STAND_IN_LACKS="flatten")
        self.assertEqual(
            (status, out.startswith("FAIL board: 3 faults are certain. Certain: the same for the least and the most ")),
            (1, True),
        )
        out = self.show("board", "--all", "--explain", STAND_IN_LACKS="flatten")[1]
        self.assertIn("aperture macros could not be written out: words not understood\n", out)
        self.assertIn("explained: not flattened: words not understood\n", out)
        self.show("board", "--junit", "b.xml", "--rdb", "b.lyrdb", STAND_IN_LACKS="flatten")
        self.assertEqual(
            minidom.parseString(self.read("b.xml")).getElementsByTagName("testsuite")[0].getAttribute("failures"), "3"
        )
        self.assertEqual(len(minidom.parseString(self.read("b.lyrdb")).getElementsByTagName("item")), 3)
        self.board({**BAD, "top.gbr": gerber(*[line.replace("1,1,", "1,0,") for line in lines])}, "off")
        out = self.show("off", "--all", "--explain")[1]
        self.assertRegex(
            out, r"macros could not be written out: top.gbr, command \d+: an aperture macro that takes copper away"
        )
        self.assertIn("explained: not flattened: top.gbr: flatten 34 ExposureOff at command ", out)

    def test_notes_of_many_files(self):
        """What is said of each of twelve layers is said once."""
        names = [f"l{k}.gbr" for k in range(12)]
        self.assertEqual(
            made_first.written_out(names),
            [
                "l0.gbr, l1.gbr, l2.gbr, l3.gbr, l4.gbr, l5.gbr and 6 more: their aperture macros were written out as areas in a copy, which "
                "--keep keeps"
            ],
        )
        lines = {name: f"{name}: flatten 34 ExposureOff at command 3, byte 9" for name in names}
        self.assertEqual(
            list(made_first.not_written_out(lines)),
            [
                "aperture macros could not be written out: l0.gbr, command 3: an aperture macro that takes copper away (exposure off); nor could "
                "those of l1.gbr, l2.gbr, l3.gbr, l4.gbr, l5.gbr, l6.gbr and 5 more"
            ],
        )
        self.assertEqual((made_first.written_out([]), list(made_first.not_written_out({}))), ([], []))

    def test_copper_that_is_not_known(self):
        """Where `flatten` fails, the report alone says what is wrong, with the files' labels."""
        self.board(BAD)
        status, out, _ = self.show("board", STAND_IN_LACKS="flatten")
        self.assertEqual((status, "words not understood" in out), (1, True))
        self.assertIn("R1 pin 2 (the one layer, 3.000, 5.000 mm) is not joined to", out)
        self.assertIn("VCC reaches the others over ", out)
        notes = self.show("board", "--page", "p.html", STAND_IN_LACKS="flatten")[2]
        self.assertEqual(notes, "boardnet: no picture is drawn, since the copper of board is not known\n")
        labelled = [
            *label("GND"),
            *flash(10, (0, 0)),
            *label("VCC"),
            *flash(10, (10, 0)),
            *draw(11, (0, 0), (10, 0)),
            "%TD*%",
            *flash(10, (0, 5), (3, 5)),
        ]
        self.board({**BAD, "top.gbr": gerber(*labelled)}, "labelled")
        out = self.show("labelled", STAND_IN_LACKS="flatten")[1]
        self.assertIn("By the files' labels: top.gbr command 14 of VCC reaches top.gbr command 8 of GND.", out)

    def test_twenty_lines(self):
        points = [record(f"N{k}", f"J1.{k}", 50 + k, 50) for k in range(30)] + [record("GND", "J2.1", 0, 0)] * 31
        self.board({**GOOD, "n.ipc": netlist(*points)})
        out = self.show("board")[1].splitlines()
        self.assertEqual((len(out), out[-1]), (22, "20 further findings: --all prints them, --page FILE shows them"))
        self.assertEqual(len(self.show("board", "--all")[1].splitlines()), 61)
        self.assertEqual(len(self.show("board", "-q")[1].splitlines()), 31)

    def test_forms(self):
        self.board(BAD)
        status, out, _ = self.show("board", "--json", "b.json", "--junit", "b.xml", "--rdb", "b.lyrdb")
        self.assertEqual((status, out.startswith(READER)), (1, True))
        board = json.loads(self.read("b.json"))["boards"][0]
        self.assertEqual([it["id"] for it in board["findings"]], ["open-0", "short-0", "missing-0"])
        suite = minidom.parseString(self.read("b.xml")).getElementsByTagName("testsuite")[0]
        self.assertEqual(
            [suite.getAttribute(name) for name in ("name", "tests", "failures", "errors")], ["board", "3", "3", "0"]
        )
        self.assertIn(
            "missing-0: no copper of top.gbr lies under </b>", suite.getElementsByTagName("failure")[2].firstChild.data
        )
        items = minidom.parseString(self.read("b.lyrdb")).getElementsByTagName("item")
        values = [[value.firstChild.data for value in it.getElementsByTagName("value")] for it in items]
        self.assertEqual(
            [it[:-1] for it in values],
            [
                ["edge: (3000,5000;0,5000)", "box: (1400,4900;1600,5100)"],
                ["box: (4900,-100;5100,100)"],
                ["box: (-600,9899;-400,10099)"],
            ],
        )
        self.assertTrue(all(it[-1].startswith("text: '") for it in values))
        refused = self.board({**GOOD, "top.gbr": "%FSLAX46Y46*%\n"}, "refused")
        self.show(refused, "--junit", "r.xml")
        self.assertIn(
            "the file ends too early: ",
            minidom.parseString(self.read("r.xml")).getElementsByTagName("error")[0].getAttribute("message"),
        )
        self.show(refused, "--rdb", "r.lyrdb")
        self.assertIn(
            "the file ends too early: ",
            minidom.parseString(self.read("r.lyrdb")).getElementsByTagName("item")[0].toxml(),
        )
        # Where there is no such form, the standard error has the words.
        for name in ("--ipc", "--record", "--page", "--svg"):
            status, out, notes = self.show("nowhere", name, "-")
            self.assertEqual(
                (status, out, notes.split("\n")[0]),
                (4, "", "NOT JUDGED nowhere: cannot be read: No such file or directory."),
                name,
            )
        self.assertIn(
            "<description>NOT JUDGED nowhere: cannot be read: No such file", self.show("nowhere", "--rdb", "-")[1]
        )

    def test_controls(self):
        """What hides or turns round text reaches no form as it is: of aliases, pins, file names, names of pads, ties."""
        bad = "\x1b[2J\u202e\u2028\x9b\x07"
        points = [
            record("NNAME1", "J1.1", 0, 0),
            f"C PIN,U{bad},1{bad}",
            record("NNAME1", "J1.2", 5, 5),
            record("VCC", "J1.3", 8, 8),
        ]
        own = {
            "one.gbr": gerber(
                "%TF.FileFunction,Copper,L1,Top*%", f"%TO.P,U{bad},1*%", f"%TO.N,A{bad}*%", *flash(10, (0, 0), (5, 5))
            )
        }
        files = {
            "m.json": manifest(),
            "top.gbr": gerber(*flash(10, (0, 0), (5, 5), (8, 8))),
            "n.ipc": f"P  NNAME1  GND{bad}\n" + netlist(*points),
        }
        self.board(files, f"a{bad}")
        self.board({**own, f"x{bad}.txt": "text"}, "own")
        self.board({**files, "m.json": manifest([f"t{bad}.gbr"])}, "refused")
        forms = (
            "--json",
            "f.json",
            "--junit",
            "f.xml",
            "--rdb",
            "f.lyrdb",
            "--page",
            "f.html",
            "--svg",
            "f.svg",
            "--record",
            "f.record",
        )
        for path, words in (
            (f"a{bad}", ()),
            (f"a{bad}", ("-q",)),
            ("own", ("--yes",)),
            ("own", ("-q",)),
            ("refused", ()),
            (f"nowhere{bad}", ()),
        ):
            status, out, notes = self.show(path, *words, *forms)
            self.assertIn(status, (1, 3, 4, 10))
            texts = [out, notes, *(self.read(name) for name in (forms[1::2] if status == 1 else forms[1:6:2]))]
            for text in [*texts, *(unpacked(text)[0]["names"] for text in texts if "<script id=" in text)]:
                self.assertFalse(set(bad) - set("[2J") & set("".join(text)), path)
        self.assertIn("GND\\u001b[2J\\u202e\\u2028\\u009b\\u0007 is in 2 parts", self.show(f"a{bad}")[1])
        names = [it["names"] for it in json.loads(self.show(f"a{bad}", "--json", "-")[1])["boards"][0]["findings"]]
        self.assertEqual(names, [[f"GND{bad}"]])
        self.board({f"x{bad}.txt": "text", f"y{bad}.gbr": gerber("%TF.FileFunction,Copper,L1,Top*%")}, "made")
        done = self.run_words([os.path.join(common.TOOLS, "manifest"), "made"])
        self.assertFalse(set(bad) - set("[2J") & set("".join(done[1:])), done)

    def test_output_that_cannot_be_written(self):
        self.board(BAD)
        for name in ("--json", "--junit", "--rdb", "--page", "--svg"):
            status, _, notes = self.show("board", name, "no/such/folder")
            self.assertEqual(
                (status, notes), (5, "boardnet: no/such/folder: No such file or directory: cannot be written\n"), name
            )
        with open("/dev/full", "w") as full:
            done = subprocess.run(
                [sys.executable, made.SHOW, "board"],
                cwd=self.scratch,
                env={**os.environ, "BOARDNET": made.STAND_IN},
                stdout=full,
                stderr=subprocess.PIPE,
            )
        self.assertEqual(done.returncode, 5)
        rows = (
            ("--help", ">/dev/full", "No space left on device"),
            ("board", ">&-", "Bad file descriptor"),
            ("--help", ">&-", "Bad file descriptor"),
        )
        for word, where, why in rows:
            told = self.run_words(
                ["sh", "-c", f'exec "$0" "$@" {where}', sys.executable, made.SHOW, word],
                environment={"BOARDNET": made.STAND_IN},
            )
            self.assertEqual(told, (5, "", f"boardnet: -: {why}: cannot be written\n"), (word, where))
        self.assertEqual(sorted(os.listdir(self.scratch)), ["board"])

    def test_closed_standard_error(self):
        self.board(BAD)
        for words, status, lines in (
            (["board", "-q"], 1, 4),
            (["nowhere", "--ipc", "-"], 4, 0),
            (["board", "--jso", "b.json"], 2, 0),
        ):
            told = self.run_words(
                ["sh", "-c", 'exec "$0" "$@" 2>&-', sys.executable, made.SHOW, *words],
                environment={"BOARDNET": made.STAND_IN},
            )
            self.assertEqual((told[0], told[1].count("\n"), told[2]), (status, lines, ""), words)

    def test_no_program(self):
        self.board(GOOD)
        for name in ("nothing", "board"):
            path = self.path(name)
            self.assertEqual(
                self.show("board", program=path),
                (127, "", f"boardnet: BOARDNET names {path}, which is no program that can be run\n"),
            )
        status, _, notes = self.show("board", program="")
        if status == 127:
            self.assertIn("the program is not built", notes)

    def test_interrupted(self):
        self.board(GOOD)
        program = self.write("slow", '#!/bin/sh\necho $$ >pid.txt\necho there >"$OUT/there"\nexec sleep 60\n', 0o755)
        one, two, three = SIGNALS
        # What is sent, and what is ignored from the start; what comes behind the first that counts changes nothing.
        for numbers, ignored in (
            ([one], None),
            ([two], None),
            ([three], None),
            ([one] * 9, None),
            ([two, one, three], None),
            ([three, two], three),
        ):
            out = self.path("out")
            os.makedirs(out, exist_ok=True)
            how = {
                "env": {**os.environ, "BOARDNET": program, "OUT": out, "TMPDIR": self.temporary},
                "stderr": subprocess.PIPE,
                "stdout": subprocess.PIPE,
                "cwd": self.scratch,
                "preexec_fn": (lambda: signal.signal(three, signal.SIG_IGN)) if ignored else None,
            }
            running = subprocess.Popen([sys.executable, made.SHOW, "board", "--json", "b.json"], **how)
            deadline = time.time() + 100
            while not os.path.exists(os.path.join(out, "there")) and time.time() < deadline:
                time.sleep(0.02)
            for number in numbers:
                running.send_signal(number)
                time.sleep(0.5 if number == ignored else 0)
            told = (*running.communicate(timeout=100), running.returncode)
            self.assertIn(told, [(b"", b"", 128 + number) for number in numbers if number != ignored], numbers)
            os.remove(os.path.join(out, "there"))
            self.assertEqual(os.listdir(self.temporary), [])
        self.assertEqual(sorted(os.listdir(self.scratch)), ["board", "out", "slow"])

    def test_signal_at_the_end(self):
        script = """
import os, signal, sys
sys.path.insert(0, sys.argv[1])
from boardnet_show.command import run
class Late:
    def __del__(self, kill=os.kill, own=os.getpid(), number=signal.SIGINT):
        kill(own, number)
late = Late()
run.boards = lambda *_: os.kill(os.getpid(), signal.SIGTERM)
sys.exit(run.main(["board"]))
"""
        told = self.run_words([sys.executable, "-c", script, common.TOOLS], environment={"BOARDNET": made.STAND_IN})
        self.assertEqual(told, (128 + signal.SIGTERM, "", ""))

    def test_installed_words(self):
        with open(os.path.join(common.TOOLS, "help.txt")) as file:
            page = file.read().split("\n= show ")[1].split("\n= ")[0]
        from boardnet_show.command import options

        for name in {*options.FLAGS, *options.WITH_VALUES, *options.OFTEN} - {"--help", "-h"}:
            self.assertIn(f"\n  {name} ", page, name)
