"""Several boards in one call: a folder of them, their lines and their sum, at once, and a page for all."""
import json
import os
import zipfile

from boardnet_show.command import batch
from boardnet_show.fitting import placement
from tests.fixtures import made
from tests.fixtures.hinted import files_of, with_netlist
from tests.fixtures.made import flash, gerber, manifest, netlist, record

GOOD = {
    "m.json": manifest(),
    "top.gbr": gerber(*flash(10, (0, 0), (5, 0))),
    "n.ipc": netlist(record("A", "J1.1", 0, 0), record("B", "J1.2", 5, 0)),
}
BAD = {**GOOD, "n.ipc": netlist(record("A", "J1.1", 0, 0), record("A", "J1.2", 5, 0))}
MOVED = with_netlist(files_of(), placement.FORMS[0][1], (12345, -678))


class Batch(made.Case):
    def setUp(self):
        super().setUp()
        for name, files in (("good", GOOD), ("bad", BAD), ("moved", MOVED)):
            self.board(files, f"all/{name}")
        with zipfile.ZipFile(self.path("all", "packed.zip"), "w") as file:
            for name, data in GOOD.items():
                file.writestr(name, data)
        self.write("all/readme.txt", "boards")

    def test_folder(self):
        """A folder of packages and archives is these; each line has its hint, and the last one the sum."""
        status, out, _ = self.show("all")
        lines = out.splitlines()
        self.assertEqual(
            (status, [line.split(":")[0] for line in lines]),
            (1, ["FAIL all/bad", "PASS all/good", "FAIL all/moved", "PASS all/packed.zip", "4 boards"]),
        )
        self.assertTrue(
            lines[2].endswith(" [hint: with the netlist moved by (-12.345, 0.678) mm, the board passes]"), lines[2]
        )
        self.assertEqual(lines[-1], "4 boards: 2 pass, 2 fail")
        self.assertEqual(self.show("all", "--take-hints")[1].splitlines()[-1], "4 boards: 3 pass, 1 fails")

    def test_no_batch(self):
        """A folder with files of a board of its own is that board, whatever else is in it; so is one with a manifest, or without boards."""
        self.board(GOOD, "one")
        self.board(GOOD, "one/old")
        self.board({name: data for name, data in GOOD.items() if name != "m.json"}, "two")
        self.board(GOOD, "two/old")
        self.write("three/notes/readme.txt", "none")
        for folder in ("one", "two", "three", "all/packed.zip", "nowhere"):
            self.assertEqual(batch.boards_in(self.path(folder)), [], folder)
        self.assertEqual(batch.paths_of([self.path("one"), self.path("all")])[0], self.path("one"))

    def test_folders_of_a_board(self):
        """A board whose copper lies in a folder of its own is one of the batch too, and none is passed over."""
        files = {name: data for name, data in GOOD.items() if name != "m.json"}
        self.board({"top.gbr": files["top.gbr"]}, "all/sorted/copper")
        self.board({"n.ipc": files["n.ipc"]}, "all/sorted")
        self.assertIn(self.path("all/sorted"), batch.boards_in(self.path("all")))
        self.assertEqual(batch.boards_in(self.path("all/sorted")), [])

    def test_quiet(self):
        """The verdict of each board stands before its hints and findings."""
        lines = self.show("all", "-q")[1].splitlines()
        self.assertEqual(
            [line.split(": ")[0] for line in lines[:4]], ["all/bad", "all/bad/n.ipc:3", "all/good", "all/moved"]
        )
        self.assertTrue(lines[4].startswith("all/moved: hint: "), lines[4])
        self.assertEqual(lines[-1], "4 boards: 2 agree, 2 differ")

    def test_at_once(self):
        """Several at once say what they say one after the other."""
        for words in ([], ["-q"], ["--json", "-"], ["--junit", "-"]):
            self.assertEqual(self.show("all", "--jobs", "3", *words), self.show("all", *words))
        for text in ("0", "-1", "x", "65", "1.5"):
            self.assertEqual(self.show("all", f"--jobs={text}")[0], 2, text)

    def test_page(self):
        """A list, and the page of each board whose copper is known beside it."""
        self.board({**GOOD, "top.gbr": "%FSLAX46Y46*%\n"}, "all/refused")
        self.assertEqual(self.show("all", "--page", "out/list.html")[0], 5)
        os.mkdir(self.path("out"))
        self.assertEqual(self.show("all", "--page", "out/list.html")[0], 3)
        self.assertEqual(
            sorted(os.listdir(self.path("out"))),
            ["list-1.html", "list-2.html", "list-3.html", "list-4.html", "list.html"],
        )
        text = self.read("out/list.html")
        self.assertIn("5 boards: 2 pass, 2 fail, 1 is not judged", text)
        self.assertEqual(text.count('<a href="list-'), 4)
        self.assertEqual(self.show("all", "--page", "-")[0], 2)

    def test_options_of_one_board(self):
        self.assertEqual(self.show("all", "--svg", "-")[0], 2)
        self.assertEqual(len(json.loads(self.show("all", "--json", "-")[1])["boards"]), 4)
