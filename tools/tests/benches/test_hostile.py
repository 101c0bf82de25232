"""The inputs made to harm: the same for the same seed, of the sizes that they are named for, from packages that are whole."""
import os
import re
import sys

from tests.fixtures import common

sys.path.append(os.path.join(common.TOP, "benches"))
import hostile_inputs as inputs


class Inputs(common.Case):
    def test_same_for_the_same_seed(self):
        one, other = (inputs.Maker(common.TOP, 7) for _ in range(2))
        for index in range(200):
            made, again = one.made(index), other.made(index)
            self.assertEqual((made.what, made.files, made.trial), (again.what, again.files, again.trial))

    def test_limits(self):
        maker = inputs.Maker(common.TOP, 1)
        names = [what for what, _ in maker.at_limits]
        self.assertEqual(len(names), len(set(names)))
        for what, make in inputs.files_at_the_limit():
            size = next(int(word) for word in what.split() if word.isdigit())
            if size == inputs.MOST:
                self.assertIn(size, [len(data) for data in make().files.values()], what)
        self.assertEqual(maker.made(-1).what, names[0])

    def test_flashes_are_as_many_as_named(self):
        for what, make in inputs.Maker(common.TOP, 1).at_limits:
            if named := re.match(r"([\d,]+) flashes", what):
                self.assertEqual(make().files["t.gbr"].count(b"D03*"), int(named[1].replace(",", "")), what)

    def test_packages_they_are_made_from(self):
        program = common.program()
        rows = [
            (inputs.with_labels(), ["check", "m.json"], 0),
            (inputs.with_labels(), ["x2", "m.json"], 1),
            (inputs.with_macros(), ["flatten", "t.gbr"], 0),
            (inputs.package(inputs.with_macro([b"1,1,0.1,0,0"] * 256, *inputs.grid(3))), ["flatten", "t.gbr"], 0),
        ]
        for number, (files, words, wanted) in enumerate(rows):
            for name, data in files.items():
                self.write(f"row{number}/{name}", data)
            self.assertEqual(self.run_words([program, *words], self.path(f"row{number}"))[0], wanted, (number, words))
