"""Hints on boards whose copper files were all flattened, or stand between bounds, as those of KiCad with its macros do."""
import json
import unittest

from boardnet_show.fitting import placement
from tests.command.test_declared import DEFAULTS
from tests.fitting.test_placement import buried
from tests.fixtures import made
from tests.fixtures.hinted import Case, files_of
from tests.fixtures.made import STAND_IN

CIRCLE = "%AMC1*\n1,1,1.0,0,0*%\n%ADD10C1*%"
CORNERS = [(-0.3, -0.2), (0.3, -0.2), (0.3, 0.2), (-0.3, 0.2)]


def round_rectangle(turn):
    """KiCad's macro of a pad with round corners, turned by whole degrees."""
    outline = ",".join(f"{x},{y}" for x, y in [*CORNERS, CORNERS[0]])
    rows = [f"4,1,4,{outline},{turn}", *(f"1,1,0.2,{x},{y},{turn}" for x, y in CORNERS)]
    rows += [f"20,1,0.2,{a},{b},{c},{d},{turn}" for (a, b), (c, d) in zip(CORNERS, CORNERS[1:] + CORNERS[:1])]
    return "%AMRoundRect*\n" + "*\n".join(rows) + "*%\n%ADD11RoundRect*%"


def with_macros(files, pad=None):
    """Circles by a macro, and the other pads too where that is said."""
    told = dict(files)
    for name in ("a.gbr", "b.gbr"):
        text = files[name].replace("%ADD10C,1.0*%", CIRCLE)
        told[name] = text.replace("%ADD11R,0.8X0.6*%", pad) if pad else text
        assert told[name] != files[name]
    return told


WAYS = {
    "flattened": lambda files: with_macros(files),
    "between bounds": lambda files: with_macros(files, round_rectangle(30)),
}
# What each is exported as, and what its first hint says.
ROWS = [
    ("drills", "with the drills moved by (-3.500, 2.250) mm, "),
    ("mirrored drills", "with the drills mirrored upside down, "),
    ("netlist", "with the netlist moved by (-12.345, 0.678) mm, "),
    ("both", "with the netlist moved by (-12.345, 0.678) mm, "),
    ("layers", "with the layers in the order a.gbr, b.gbr "),
]


class EveryBoard(Case):
    def over_all(self):
        """Each program, and the ways that it has."""
        for program in self.over_both():
            for way, change in WAYS.items():
                if program != STAND_IN or way == "flattened":
                    yield program, way, change

    def test_rows(self):
        for program, way, change in self.over_all():
            for name, wanted in ROWS:
                with self.subTest(name, way=way):
                    status, words, found = self.told(change(DEFAULTS[name]()), program)
                    self.assertEqual(status, 3 if way == "between bounds" else 1)
                    self.assertTrue(words and words[0].startswith(wanted), words)
                    self.assertEqual(found[-1].answer.status, 0, words)

    def test_nothing_to_tell(self):
        for program, way, change in self.over_all():
            self.assertEqual(self.told(change(files_of()), program)[1], [], way)

    def test_copper(self):
        """Netlist and drills fit each other, and neither fits the copper."""
        for program, way, change in self.over_all():
            files = DEFAULTS["drills"]()
            files["n.ipc"] = placement.moved(files["n.ipc"], placement.FORMS[0][1], (3500, -2250))
            _, words, found = self.told(change(files), program)
            self.assertTrue(words[0].startswith("with the copper moved by (3.500, -2.250) mm, "), (way, words))
            self.assertEqual(found[-1].answer.status, 0, words)

    def test_another_fault(self):
        """A hole too few is no hole elsewhere."""
        for program, way, change in self.over_all():
            files = files_of()
            lines = files["p.drl"].splitlines(True)
            _, words, _ = self.told(change({**files, "p.drl": "".join(lines[:5] + lines[6:])}), program)
            self.assertEqual(words, [], way)


class Codes(Case):
    def four(self, code):
        """Four layers of which the via of the second file of drills has a code."""
        files = buried(code)
        told = json.loads(files["m.json"])
        return {**files, "m.json": json.dumps({**told, "copper": told["copper"][:4]})}

    def test_a_code_that_is_no_layer(self):
        """On four layers none is of number 7, as KiCad writes it for a via from layer 2 to 3."""
        program = made.built()
        if not program:
            raise unittest.SkipTest("there is no built program")
        flat = lambda text: text.replace("%ADD10C,1.0*%", CIRCLE)
        off = lambda text: text.replace("%ADD10C,1.0*%", CIRCLE.replace("1,1,1.0,0,0", "1,1,1.0,0.1,0,30"))
        for change in (str, flat, off):
            files = {name: change(text) if name.endswith(".gbr") else text for name, text in self.four("07").items()}
            status, words, found = self.told(files, program)
            self.assertEqual((status, len(words), found[0].kind), (3, 1, "access codes"), words)
            self.assertIn("read as the first layer of the hole at their place", words[0])
            self.assertEqual(found[0].answer.status, 0, words)


if __name__ == "__main__":
    unittest.main()
