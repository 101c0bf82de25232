"""The command `flatten` of the built program: a board judges the same with its copper files rewritten."""
import json
import os
import sys

from tests.fixtures import common

sys.path.append(os.path.join(common.TOP, "benches"))
import made_board


class Flattened(common.Case):
    """Each copper file of a board is rewritten, and its text once more."""

    def setUp(self):
        super().setUp()
        self.program = common.program()

    def flattened(self, folder, name):
        status, text, notes = self.run_words([self.program, "flatten", name], folder)
        self.assertEqual((status, notes), (0, "boardnet: flattened\n"))
        self.write(os.path.join(folder, "flat_" + name), text)
        self.assertEqual(self.run_words([self.program, "flatten", "flat_" + name], folder), (0, text, notes))
        return "flat_" + name

    def compare(self, folder):
        with open(os.path.join(folder, "m.json"), encoding="ascii") as file:
            manifest = json.load(file)
        copper = [self.flattened(folder, name) for name in manifest["copper"]]
        self.write(os.path.join(folder, "flat.json"), json.dumps({**manifest, "copper": copper}))
        plain = self.run_words([self.program, "check", "m.json", "1"], folder)
        self.assertIn(plain[0], (0, 1))
        self.assertEqual(self.run_words([self.program, "check", "flat.json", "1"], folder), plain)

    def test_examples(self):
        for name in common.examples():
            with self.subTest(name):
                self.compare(self.example(name, name))

    def test_made_board(self):
        os.mkdir(self.path("made"))
        made_board.write(self.path("made"), 1, 300)
        self.compare(self.path("made"))
