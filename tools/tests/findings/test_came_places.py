"""That findings name commands and lines of the files that came, also where copies were judged; and the file alone where they are not known."""
import json
import unittest

from boardnet_show.findings.came_places import CamePlaces
from tests.fixtures import made
from tests.fixtures.made import draw, drill, flash, gerber, manifest, netlist, record

# A macro of one circle, as the stand-in has them, and one of three, which is flattened to as many flashes.
MACRO = "%AMOne*\n1,1,1.0,0,0*%\n%ADD13One*%"
THREE = "%AMOne*\n1,1,1.0,0,0*\n1,1,0.6,0.4,0*\n1,1,0.6,-0.4,0*%\n%ADD13One*%"


def macros(program):
    return MACRO if program == made.STAND_IN else THREE


ENDS = (record("A", "J1.1", 0, 0), record("A", "J1.2", 0, 5), record("B", "J2.1", 10, 0), record("B", "J2.2", 10, 5))
PADS = flash(13, (0, 0), (0, 5), (10, 0), (10, 5))
TRACKS = [*draw(11, (0, 0), (0, 5)), *draw(11, (10, 0), (10, 5))]
GERBER_DRILLS = gerber("%TF.FileFunction,Plated,1,2,PTH*%", *flash(11, (0, 0), (0, 5), (10, 0), (10, 5), (5, 2)))


def shorted(*copper, **more):
    """A and B with a track between them."""
    lines = [*(copper or [MACRO, *PADS, *TRACKS]), *draw(11, (0, 2), (10, 2))]
    return {"m.json": manifest(), "top.gbr": gerber(*lines), "n.ipc": netlist(*ENDS), **more}


def holed(drills):
    """A above and B below, which a hole at (5, 2) joins."""
    lines = lambda *ends: [*flash(10, (0, 0), (0, 5), (10, 0), (10, 5)), *draw(11, *ends)]
    return {
        "m.json": manifest(["top.gbr", "bottom.gbr"], [("p.drl", 1, 2)]),
        "top.gbr": gerber(*lines((0, 0), (5, 2), (0, 5))),
        "bottom.gbr": gerber(*lines((10, 0), (5, 2), (10, 5))),
        "p.drl": drills,
        "n.ipc": netlist(*(it[:0] + record(name, pin, x, y, "00") for it, name, pin, x, y in PINS)),
    }


PINS = [("", "A", "J1.1", 0, 0), ("", "A", "J1.2", 0, 5), ("", "B", "J2.1", 10, 0), ("", "B", "J2.2", 10, 5)]


def command_of(text, word):
    """The number of the last word of a file, counted as `check` does."""
    words = text.replace("%", "").replace("\n", "").split("*")
    return max(number for number, it in enumerate(words, 1) if it == word)


class Came(made.Case):
    def told(self, files, *words, program=made.STAND_IN):
        self.board(files)
        status, out, notes = self.show("board", "--json", "-", *words, program=program)
        return status, json.loads(out)["boards"][0], notes

    def pieces(self, told):
        (short,) = [it for it in told["findings"] if it["kind"] == "short"]
        return [it for meet in short["meets"] for it in meet["path"]], short["words"] + " ".join(short["hints"])

    def test_flattened(self):
        for program in self.over_both():
            files = shorted(macros(program), *PADS, *TRACKS)
            status, told, notes = self.told(files, program=program)
            self.assertEqual(
                (status, any("aperture macros were written out" in it for it in told["notes"])), (1, True), notes
            )
            track = command_of(files["top.gbr"], "X10000000Y2000000D01")
            pieces, words = self.pieces(told)
            self.assertIn(track, [it["command"] for it in pieces])
            self.assertIn(f"top.gbr command {track} ", words)
            self.assertIn("A and B are joined, it seems on the one layer (top.gbr) at ", words)
            self.assertLessEqual(max(it["command"] for it in pieces), track)

    def test_flattened_blocks(self):
        """Copies of step and repeat have the command of the block, and their number."""
        block = ["%SRX2Y1I10.0J0*%", *flash(13, (0, 0), (0, 5)), *draw(11, (0, 0), (0, 5)), "%SR*%"]
        for program in self.over_both():
            files = shorted(macros(program), *block)
            _, told, _ = self.told(files, program=program)
            flashes = {command_of(files["top.gbr"], f"X0Y{y}D03") for y in (0, 5_000_000)}
            draws = {command_of(files["top.gbr"], it) for it in ("X0Y5000000D01", "X10000000Y2000000D01")}
            pieces, _ = self.pieces(told)
            self.assertLessEqual({it["command"] for it in pieces}, flashes | draws)
            self.assertIn(1, {it["copy"] for it in pieces})

    def test_not_known(self):
        """Where the objects of the file that came are not as many as its pieces, the file alone is named."""
        self.told(shorted())

        class Board:
            shapes = None
            manifest = type("Manifest", (), {"files": ["top.gbr"], "is_drilled": staticmethod(lambda file: False)})
            report = type("Report", (), {"sources": [(0, 1, 0, 1, 1)] * 3})

        class Package:
            mends, lines, flattened, base = (), {}, {"top.gbr"}, None
            before = {"top.gbr": shorted()["top.gbr"].encode()}
            read = staticmethod(lambda name: b"")

        Board.package = Package
        self.assertEqual([CamePlaces(Board).of(piece) for piece in range(3)], [None] * 3)

    DRILLS = [
        # what the file is, and the line of the hole at (5, 2)
        ("as it came", drill((0.0, 0.0), (0.0, 5.0), (10.0, 0.0), (10.0, 5.0), (5.0, 2.0)), 10),
        (
            "repeats",
            "\n".join(
                (
                    "M48",
                    "METRIC",
                    "T1C0.4",
                    "%",
                    "T1",
                    "X0.0Y0.0",
                    "R1Y5.0",
                    "X10.0Y0.0",
                    "R1Y5.0",
                    "X5.0Y2.0",
                    "M30",
                    "",
                )
            ),
            10,
        ),
        (
            "no header",
            "\n".join(
                (
                    "METRIC",
                    "T1C0.4F200S100",
                    "%",
                    "T1",
                    "X0.0Y0.0",
                    "X0.0Y5.0",
                    "X10.0Y0.0",
                    "X10.0Y5.0",
                    "X5.0Y2.0",
                    "M30",
                    "",
                )
            ),
            9,
        ),
        ("in the Gerber format", GERBER_DRILLS, None),
    ]

    def test_drills(self):
        for program in self.over_both():
            for what, text, line in self.DRILLS:
                with self.subTest(what):
                    status, told, notes = self.told(holed(text), program=program)
                    self.assertEqual(status, 1, (told["line"], notes))
                    pieces, words = self.pieces(told)
                    holes = [it for it in pieces if it["file"] == "p.drl"]
                    self.assertEqual([it.get("line") for it in holes], [line] * len(holes), words)
                    self.assertTrue(holes)
                    self.assertIn("p.drl line " + str(line) if line else "p.drl as it was rewritten", words)


if __name__ == "__main__":
    unittest.main()
