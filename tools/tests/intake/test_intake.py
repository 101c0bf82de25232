"""What `show` takes in: names that lead elsewhere, files that are none, names of its own, and copies of nothing."""
import json
import os
import zipfile

from boardnet_show.base.statuses import BadCopper
from boardnet_show.bounds.files.bounded_file import Copper
from boardnet_show.formats.gerber_objects import objects_of
from boardnet_show.geometry.exact import Refused
from boardnet_show.intake.file_names import MOST_BYTES
from tests.fixtures import made
from tests.fixtures.made import draw, flash, gerber, manifest, netlist, record

TOP = gerber(*flash(10, (0, 0), (10, 0)), *draw(11, (0, 0), (10, 0)))
NET = netlist(record("SIG", "J1.1", 0, 0), record("SIG", "J1.2", 10, 0))
BOARD = {"m.json": manifest(), "top.gbr": TOP, "n.ipc": NET}


def naming(**names):
    return json.dumps({"copper": ["top.gbr"], "drills": [], "netlist": "n.ipc", **names})


class Names(made.Case):
    def archive(self, files, name="b.zip"):
        with zipfile.ZipFile(self.path(name), "w", zipfile.ZIP_DEFLATED) as made_of:
            for inside, text in files.items():
                made_of.writestr(inside, text)
        return name

    def test_archives(self):
        """Names of an archive's manifest lead to files of the archive, by whatever way they say it."""
        self.write("top.gbr", TOP)
        for name in (
            "../../dev/zero",
            "../../../../../../dev/zero",
            "/dev/zero",
            "/dev/stdin",
            "../top.gbr",
            self.path("top.gbr"),
            ".",
            "../unpacked",
        ):
            for key, value in (("copper", [name]), ("netlist", name), ("drills", [{"file": name, "from": 1, "to": 1}])):
                with self.subTest(name=name, key=key):
                    self.archive({**BOARD, "m.json": naming(**{key: value})})
                    self.assertEqual(
                        self.show("b.zip", "-q")[:2], (4, f"b.zip: {name}: cannot be read: it is not in the archive\n")
                    )
        for name in ("top.gbr", "./top.gbr", "../unpacked/top.gbr"):
            self.archive({**BOARD, "m.json": naming(copper=[name])})
            self.assertEqual(self.show("b.zip", "-q")[:2], (0, "b.zip: agrees\n"), name)
        self.archive({**BOARD, "m.json": naming(copper=["lost.gbr"])})
        self.assertEqual(self.show("b.zip", "-q")[:2], (4, "b.zip: lost.gbr: cannot be read\n"))

    def test_links_in_archives(self):
        """A link of an archive is a file with a name in it."""
        link = zipfile.ZipInfo("top.gbr")
        link.create_system, link.external_attr = 3, 0o120777 << 16
        with zipfile.ZipFile(self.path("b.zip"), "w") as made_of:
            made_of.writestr(link, "/dev/zero")
            for name in ("m.json", "n.ipc"):
                made_of.writestr(name, BOARD[name])
        status, out, _ = self.show("b.zip", "-q")
        self.assertNotIn(status, (0, 1), out)
        if made.built():
            self.assertEqual(
                self.show("b.zip", "-q", program=made.built())[:2],
                (
                    3,
                    "b.zip: top.gbr: Gerber 3 NotEnded at command 1, byte 0; line 1 of top.gbr; to export: the file anew: it is cut off\n",
                ),
            )

    def test_no_plain_files(self):
        """Devices, pipes and what links lead to are not read; plain files elsewhere are, as a manifest by hand names them."""
        for number, name in enumerate(("top.gbr", "n.ipc", "m.json", "ties.txt")):
            for kind in ("pipe", "device"):
                with self.subTest(name=name, kind=kind):
                    folder = self.board(BOARD, f"board{number}{kind}")
                    path = self.path(folder, name)
                    if os.path.exists(path):
                        os.remove(path)
                    os.mkfifo(path) if kind == "pipe" else os.symlink("/dev/zero", path)
                    self.assertEqual(
                        self.show(folder, "-q")[:2], (4, f"{folder}: {name}: cannot be read: it is no plain file\n")
                    )
        self.board({**BOARD, "m.json": naming(copper=["/dev/zero"])})
        self.assertEqual(self.show("board", "-q")[:2], (4, "board: /dev/zero: cannot be read: it is no plain file\n"))
        os.makedirs(self.path("board", "sub"))
        for names in ({"copper": ["sub"]}, {"netlist": "sub"}, {"netlist": "."}):
            self.board({**BOARD, "m.json": naming(**names)})
            name = [*names.values()][0] if "netlist" in names else "sub"
            self.assertEqual(self.show("board", "-q")[:2], (4, f"board: {name}: cannot be read: Is a directory\n"))
        os.mkfifo(self.path("pipe"))
        self.assertEqual(self.show("pipe", "-q")[:2], (4, "pipe: pipe: cannot be read: it is no plain file\n"))
        self.write("other/top.gbr", TOP)
        os.makedirs(self.path("links"))
        os.symlink("../other/top.gbr", self.path("links", "top.gbr"))
        for name in ("n.ipc", "m.json"):
            self.write(f"links/{name}", BOARD[name])
        self.assertEqual(self.show("links", "-q")[:2], (0, "links: agrees\n"))
        self.board({**BOARD, "m.json": naming(copper=["../other/top.gbr"])})
        self.assertEqual(self.show("board", "-q")[:2], (0, "board: agrees\n"))

    def test_long_files(self):
        """A file with a hole of a terabyte is refused before it is read."""
        for name in ("top.gbr", "m.json", "ties.txt"):
            folder = self.board(BOARD, f"long-{name}")
            with open(self.path(folder, name), "ab") as file:
                file.truncate(1 << 40)
            self.assertEqual(self.show(folder, "-q")[:2], (3, f"{folder}: {name}: longer than {MOST_BYTES} bytes\n"))

    def test_names_of_our_own(self):
        """A file of the board may have the name that the report has in our folder, and is kept with it."""
        for name in ("report.txt", "./report.txt", "report1.txt", "lower.json", "counts.txt", "names.ipc"):
            with self.subTest(name=name):
                folder = self.board(
                    {"m.json": naming(netlist=name), "top.gbr": TOP, name: NET}, f"board{name.replace('/', '')}"
                )
                kept = f"kept{folder}"
                self.assertEqual(self.show(folder, "-q", "--keep", kept)[:2], (0, f"{folder}: agrees\n"))
                self.assertEqual(self.read(f"{kept}/{name}"), NET)
                report = "report1.txt" if name.endswith("report.txt") else "report.txt"
                self.assertTrue(self.read(f"{kept}/{report}").startswith("boardnet 2\n"))
        self.board({"report.txt": naming(netlist="report1.txt"), "top.gbr": TOP, "report1.txt": NET})
        self.assertEqual(self.show("board/report.txt", "-q")[:2], (0, "board/report.txt: agrees\n"))

    def test_manifests_that_are_none(self):
        """A name that no file has, as a half of a sign or a byte 0, is none that `check` takes."""
        for number, name in enumerate(("\ud800", "a\udfff.gbr", "\u00e9.gbr", "a\0b", "", "n" * 201)):
            with self.subTest(name=ascii(name)):
                self.board({**BOARD, "m.json": naming(copper=[name])}, f"row{number}")
                status, _, notes = self.show(f"row{number}", "-q", program=made.built() or made.STAND_IN)
                self.assertNotIn(status, (0, 1, 70), notes)
                self.assertNotIn("a fault of `show`", notes)
        status, out, _ = self.show("")
        self.assertEqual(
            (status, out), (2, "NOT JUDGED: PATH is empty: it is a folder, a zip archive or a manifest.\n")
        )
        self.board(BOARD)
        self.assertEqual(self.show("board", "")[:1], (2,))


class Copies(made.Case):
    NOTHING = "%SRX999999999Y999999999I0J0*%%SR*%"
    HOLLOW = ["%ADD13C,0*%", "%SRX999999999Y999999999I0J0*%", *flash(13, (0, 0)), "%SR*%"]

    def test_copies_of_nothing(self):
        """Copies of nothing are none, beside copper that has bounds too; copies are counted before they are made."""
        polygon = ["%ADD14P,1.0X6*%", *flash(14, (0, 5))]
        for lines in ([self.NOTHING], self.HOLLOW):
            text = gerber(*lines, *polygon, *flash(10, (0, 0), (10, 0)), *draw(11, (0, 0), (10, 0)))
            self.assertEqual((len(objects_of(text.encode())), len(Copper(text, cuts=True).objects)), (4, 4))
            self.assertGreater(len(Copper(text).sides[0].lines), 0)
        many = gerber("%SRX999999999Y999999999I0J0*%", *polygon, "%SR*%")
        with self.assertRaises(BadCopper):
            objects_of(many.encode())
        with self.assertRaises(Refused):
            Copper(many, cuts=True)
        four = objects_of(gerber("%SRX2Y2I1J1*%", *flash(10, (0, 0)), "%SR*%").encode())
        self.assertEqual([it.copy for it in four], [0, 1, 2, 3])
