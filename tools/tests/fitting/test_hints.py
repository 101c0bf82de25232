"""Made packages made wrong in one known way: each hint is the answer of `check` on a changed copy. Over the stand-in and the built program."""
import json
import random
import unittest
from itertools import product

from boardnet_show.fitting import drill_decimals, layer_order, placement
from boardnet_show.formats.manifest import Manifest
from boardnet_show.output.sentences import changes
from boardnet_show.output.sentences.answers import bare_line
from tests.fixtures import made
from tests.fixtures.hinted import Case, files_of, with_netlist
from tests.fixtures.made import STAND_IN

STRICT = f'''#!/usr/bin/env python3
"""The stand-in, which refuses numbers without a point as the program does."""
import json, os, re, sys
with open(sys.argv[2]) as file:
    drills = json.load(file)["drills"] if sys.argv[1] in ("check", "audit") else []
for drill in drills:
    with open(drill["file"]) as file:
        for number, line in enumerate(file, 1):
            if re.search(r"[XY][+-]?\\d+(?![\\d.])", line):
                print(f"boardnet: {{drill['file']}}: drill 6 ImpliedDecimals at line {{number}}, byte 0", file=sys.stderr)
                sys.exit(3)
os.execv({STAND_IN!r}, [{STAND_IN!r}, *sys.argv[1:]])
'''


class Hints(Case):
    def test_nothing_to_tell(self):
        for program in self.over_both():
            self.assertEqual(self.told(files_of(), program)[:2], (0, []))

    def test_places(self):
        """Each mirror and turn, where it stands and moved: found, and told with the answer."""
        rows = [(turn, (0, 0)) for turn in range(1, 8)] + [(turn, (12345, -678)) for turn in (0, 1, 3, 6)]
        for program in self.over_both():
            for turn, by in rows if program != STAND_IN else rows[::3]:
                with self.subTest(turn=turn, by=by):
                    status, words, found = self.told(with_netlist(files_of(), placement.FORMS[turn][1], by), program)
                    self.assertEqual(
                        (status, len(words), found[0].kind, found[0].answer.status, bare_line(found[0].answer)),
                        (1, 1, "placement", 0, "agrees"),
                        words,
                    )
                    self.assertTrue(
                        words[0].startswith("with the netlist ") and words[0].endswith(", the board passes"), words
                    )
        status, words, _ = self.told(with_netlist(files_of(), placement.FORMS[0][1], (12345, -678)))
        self.assertEqual((status, words), (1, ["with the netlist moved by (-12.345, 0.678) mm, the board passes"]))
        status, words, _ = self.told(with_netlist(files_of(), placement.FORMS[1][1], (0, 0)))
        self.assertEqual((status, words), (1, ["with the netlist mirrored left to right, the board passes"]))

    def test_unit(self):
        for program in self.over_both():
            self.assertEqual(
                self.told(files_of(unit="0"), program)[:2],
                (1, ["with the netlist read in the other unit (0.001 mm), the board passes"]),
            )

    def test_unit_and_place(self):
        status, words, _ = self.told(with_netlist(files_of(unit="0"), placement.FORMS[0][1], (500, 40)))
        self.assertEqual(
            (status, words),
            (1, ["with the netlist read in the other unit (0.001 mm), moved by (-0.500, -0.040) mm, the board passes"]),
        )

    def test_layers(self):
        for program in self.over_both():
            files = files_of()
            files["m.json"] = files["m.json"].replace('["a.gbr", "b.gbr"]', '["b.gbr", "a.gbr"]')
            status, words, _ = self.told(files, program)
            self.assertEqual(
                (status, words),
                (
                    1,
                    [
                        "with the layers in the order a.gbr, b.gbr (where surface points have a pad of their own), the board passes"
                    ],
                ),
            )

    def test_layers_that_the_files_tell(self):
        """Where `check` refuses a file that says that it is another layer."""
        files = files_of()
        for number, name in enumerate(("a.gbr", "b.gbr"), 1):
            files[name] = f"%TF.FileFunction,Copper,L{number},X*%\n" + files[name]
        files["m.json"] = files["m.json"].replace('["a.gbr", "b.gbr"]', '["b.gbr", "a.gbr"]')
        for program in self.over_both():
            if program != STAND_IN:
                self.assertEqual(
                    self.told(files, program)[:2],
                    (3, ["with the layers in the order a.gbr, b.gbr, as the files say, the board passes"]),
                )
        package = self.package(files)
        ((change, told),) = layer_order.as_labelled(package)
        self.assertEqual(
            (changes.words(change), told.copper),
            ("the layers in the order a.gbr, b.gbr, as the files say", ["a.gbr", "b.gbr"]),
        )

    def test_inner_layers(self):
        """Of four layers in another order the outer ones are found; that the netlist cannot tell the inner ones is said."""
        files = files_of()
        inner = "\n".join(
            [
                "%FSLAX46Y46*%",
                "%MOMM*%",
                "%ADD10C,1.0*%",
                "D10*",
                *(line for line in files["a.gbr"].splitlines() if line.endswith("D03*")),
            ][:4]
            + ["M02*", ""]
        )
        files = {
            **files,
            "c.gbr": inner,
            "d.gbr": inner,
            "n.ipc": files["n.ipc"].replace("A02X", "A04X"),
            "m.json": json.dumps(
                {
                    "copper": ["b.gbr", "c.gbr", "d.gbr", "a.gbr"],
                    "drills": [{"file": "p.drl", "from": 1, "to": 4}],
                    "netlist": "n.ipc",
                }
            ),
        }
        status, words, _ = self.told(files)
        self.assertEqual(
            (status, words),
            (
                1,
                [
                    "with the layers in the order a.gbr, c.gbr, d.gbr, b.gbr (where surface points have a pad of their own; "
                    "the netlist cannot tell the order of the inner layers), the board passes"
                ],
            ),
        )

    def test_moved_and_swapped(self):
        files = with_netlist(files_of(), placement.FORMS[0][1], (12345, -678))
        files["m.json"] = files["m.json"].replace('["a.gbr", "b.gbr"]', '["b.gbr", "a.gbr"]')
        status, words, _ = self.told(files)
        self.assertEqual((status, len(words)), (1, 2), words)
        self.assertIn("moved by (-12.345, 0.678) mm, the board fails: ", words[0])
        self.assertTrue(
            words[1].startswith("besides, with the layers in the order a.gbr, b.gbr")
            and words[1].endswith("the board passes"),
            words,
        )

    def test_another_board(self):
        lines = files_of(pads=12, seed=11)["n.ipc"].splitlines()
        lines = (
            lines[:1]
            + [
                f"{line[:42]}{'+' if k % 2 else '-'}{(k * k * 977) % 90000:06d}{line[49:]}"
                for k, line in enumerate(lines[1:-1])
            ]
            + lines[-1:]
        )
        for program in self.over_both():
            status, words, found = self.told({**files_of(), "n.ipc": "\n".join(lines) + "\n"}, program)
            self.assertEqual((status, [it.kind for it in found]), (1, ["no placement"]), words)
            self.assertRegex(
                words[0],
                r"^no placement fits: .* leaves \d+ of 36 test points without copper; .* Of the best the board fails: \d+ ",
            )

    def test_a_program_that_fails(self):
        """Where the program dies on a changed copy there is no hint, and the status stays."""
        files = with_netlist(files_of(), placement.FORMS[0][1], (12345, -678))
        dies = self.write("dies", f'#!/bin/sh\ncase $PWD in *tried*) kill -9 $$;; esac\nexec {STAND_IN} "$@"\n', 0o755)
        self.assertEqual(self.told(files, dies)[:2], (1, []))

    def test_shown(self):
        """`show` prints the hint and keeps the status."""
        for name, text in with_netlist(files_of(), placement.FORMS[3][1], (0, 0)).items():
            self.write(f"board/{name}", text)
        status, out, _ = self.show("board")
        self.assertEqual(status, 1)
        self.assertIn("hint: with the netlist turned by half, the board passes\n", out)


class Decimals(Case):
    """Drill files whose numbers have no point."""

    def programs(self):
        strict = self.write("strict", STRICT, 0o755)
        return [strict if program == STAND_IN else program for program in self.over_both()]

    def test_each_count(self):
        for program in self.programs():
            for decimals in (2, 3, 4, 5):
                status, words, found = self.told(
                    files_of(number=lambda v: f"{v * 10 ** decimals // 10 ** 4:08d}"), program
                )
                self.assertEqual((status, found[0].kind), (3, "decimals"))
                self.assertTrue(
                    words[0].startswith(
                        f"with {decimals} implied decimals in p.drl (leading zeros left out or none; 15 of 15 holes on a through point), the board "
                    ),
                    words,
                )
            self.assertTrue(words[0].endswith("the board passes"), words)

    def test_leading_zeros_left_out(self):
        for program in self.programs():
            status, words, _ = self.told(files_of(number=lambda v: str(v // 10)), program)
            self.assertTrue(words[0].startswith("with 3 implied decimals in p.drl "), words)

    def test_trailing_zeros_left_out(self):
        for program in self.programs():
            status, words, _ = self.told(files_of(number=lambda v: f"{v:07d}".rstrip("0"), head="METRIC,LZ"), program)
            wanted = [
                word
                for word in words
                if "3 digits before the point in p.drl (trailing zeros left out" in word
                and word.endswith("the board passes")
            ]
            self.assertEqual((status, len(wanted)), (3, 1), words)

    def test_two_files(self):
        """Two files with their own counts of decimals."""
        files = files_of(number=lambda v: f"{v // 10:06d}")
        lines = files["p.drl"].splitlines()
        holes = [line for line in lines if line.startswith("X")]
        more = [f"{x}0Y{y}0" for x, y in (hole.split("Y") for hole in holes[8:])]
        files["q.drl"] = "\n".join(lines[:5] + more + ["M30", ""])
        files["p.drl"] = "\n".join(lines[:5] + holes[:8] + ["M30", ""])
        files["m.json"] = json.dumps(
            {
                "copper": ["a.gbr", "b.gbr"],
                "drills": [{"file": name, "from": 1, "to": 2} for name in ("p.drl", "q.drl")],
                "netlist": "n.ipc",
            }
        )
        for program in self.programs():
            status, words, _ = self.told(files, program)
            self.assertIn(
                "with 3 implied decimals in p.drl (leading zeros left out or none; 8 of 8 holes on a through point) and 4 implied decimals in q.drl ",
                words[0],
            )

    def test_no_through_points(self):
        """Where the netlist says nothing of holes, only a reading with which the board agrees is told."""
        files = files_of(number=lambda v: f"{v // 10:06d}")
        files["n.ipc"] = "".join(line for line in files["n.ipc"].splitlines(True) if not line.startswith("317"))
        short = {**files, "n.ipc": files["n.ipc"].replace(f"{'N1':<14}", f"{'N2':<14}")}
        for program in self.programs():
            found = self.told(files, program)[2]
            self.assertEqual({it.answer.status for it in found}, {0})
            self.assertEqual(self.told(short, program)[:2], (3, []))

    def test_points_are_kept(self):
        text = b"M48\nMETRIC,TZ\nT1C0.4\n%\nT1\nX1.5Y-25\n;X5\nM30\n"
        self.assertEqual(
            drill_decimals.with_point(text, drill_decimals.Reading(3, 0)),
            b"M48\nMETRIC\nT1C0.4\n%\nT1\nX1.5Y-0.025\n;X5\nM30\n",
        )

    def test_combined(self):
        """One form for all files where that fits, else the likeliest of all combinations, in their order; of many files at once."""
        chance, how = random.Random(5), [drill_decimals.Reading(d, width) for width in (0, 6) for d in range(2, 5)]
        fits = lambda name, least: [
            drill_decimals.Fit(name, it, b"", chance.randrange(4), 4)
            for it in chance.sample(how, chance.randrange(least, 5))
        ]
        for files in (1, 2, 3, 4) * 40:
            by_file = [fits(str(k), 1) for k in range(files)]
            every = list(product(*by_file))
            same = [its for its in every if len({(it.reading.decimals, it.reading.width > 0) for it in its}) == 1]
            self.assertEqual(
                drill_decimals.combined(by_file),
                sorted(same or every, key=lambda its: -sum(it.on for it in its))[: drill_decimals.MOST],
            )
        self.assertEqual(len(drill_decimals.combined([fits(str(k), 3) for k in range(64)])), drill_decimals.MOST)


class Outside(Case):
    def test_decimals_and_copper(self):
        """A drill file without points beside copper that only bounds can answer."""
        files = files_of(number=lambda v: f"{v // 10:06d}")
        files["a.gbr"] = files["a.gbr"].replace(
            "M02*", "D12*\nX90000000Y90000000D02*\nG75*\nG03X91000000Y91000000I0J1000000D01*\nG01*\nM02*"
        )
        for program in [self.write("strict", STRICT, 0o755), *self.over_both()][::2]:
            status, words, _ = self.told(files, program)
            self.assertEqual(status, 3)
            self.assertRegex(words[0], "^with 3 implied decimals in p.drl .*, the board passes$")

    def test_copper_outside_the_profile(self):
        """A board that only bounds can answer, with a netlist that is moved."""
        files = with_netlist(files_of(), placement.FORMS[0][1], (5000, 0))
        arc = "D12*\nX90000000Y90000000D02*\nG75*\nG03X91000000Y91000000I0J1000000D01*\nG01*\nM02*"
        files["a.gbr"] = files["a.gbr"].replace("M02*", arc)
        for program in self.over_both():
            status, words, found = self.told(files, program)
            self.assertEqual((status, len(found), found[0].answer.status), (3, 1, 0), words)
            self.assertEqual(words[0], "with the netlist moved by (-5.000, 0.000) mm, the board passes")


class Parts(unittest.TestCase):
    def test_six_digits_are_not_left(self):
        text = "P  UNITS CUST 1\n327A                                  A01X+999999Y+000000\n999\n"
        text = f"P  UNITS CUST 1\n{made.record('A', 'J1.1', 999.999, 0)}\n999\n"
        self.assertIsNone(placement.moved(text, placement.FORMS[0][1], (1, 0)))
        self.assertIn("X+999998Y-000007", placement.moved(text, placement.FORMS[0][1], (-1, -7)))

    def test_reordered(self):
        told = Manifest({"copper": ["a", "b", "c"], "drills": [{"file": "d", "from": 1, "to": 3}], "netlist": "n"})
        self.assertEqual(
            json.loads(layer_order.reordered(told, [2, 1, 0]).json_text()),
            {"copper": ["c", "b", "a"], "drills": [{"file": "d", "from": 1, "to": 3}], "netlist": "n"},
        )


if __name__ == "__main__":
    unittest.main()
