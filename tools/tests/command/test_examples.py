"""That the stand-in answers as the built program does, and what `show` says of the examples."""
import json
import os
import re
import subprocess

from tests.fixtures import common, made

EXAMPLES = {"two_layer": 0, "four_layers": 0, "round_board": 0, "touching_discs": 0, "opens_and_shorts": 1}


class Examples(made.Case):
    def test_reports_are_those_of_the_program(self):
        program = common.program()
        for name in EXAMPLES:
            folder = os.path.join(common.EXAMPLES, name)
            reports = []
            for path in (program, made.STAND_IN):
                text = subprocess.run(
                    [path, "check", "m.json"], cwd=folder, stdout=subprocess.PIPE, stderr=subprocess.DEVNULL
                ).stdout.decode()
                reports.append(text)
            if reports[0].startswith("boardnet 1"):
                reports[1] = re.sub(
                    r"spots \d+\n(.*\n)*(?=(agrees|differs)\n)", "", reports[1].replace("boardnet 2", "boardnet 1")
                )
            with self.subTest(name=name):
                self.assertEqual(reports[0], reports[1])

    def test_examples(self):
        for name, wanted in EXAMPLES.items():
            folder = os.path.join(common.EXAMPLES, name)
            for program in self.over_both():
                with self.subTest(name=name, program=program):
                    status, out, notes = self.show(folder, "--json", "-", program=program)
                    board = json.loads(out)["boards"][0]
                    self.assertEqual((status, board["status"], notes), (wanted, wanted, ""))
        ids = {it["id"]: it for it in board["findings"]}
        self.assertEqual(list(ids), ["open-0", "short-0", "missing-0"])
        self.assertEqual(
            (ids["open-0"]["gap"]["x"], ids["open-0"]["gap"]["y"], ids["open-0"]["gap"]["distance"]), (35, 10, 1.75)
        )
        self.assertEqual(
            [(piece["command"], piece["copy"]) for piece in ids["short-0"]["meets"][0]["between"]], [(16, 0)]
        )
