"""What a person reads of a board: one line that says PASS, FAIL or what it is, and nowhere the words of the rules, which stand
with `--explain` and in JSON."""
import json
import os
import re
import runpy
import unittest

from boardnet_show.base.progress import Progress
from boardnet_show.base.refusals import Refusal, of_line
from boardnet_show.command import one_board, options
from boardnet_show.judging.answers import BETWEEN, EXACT, Answer, Both, Counts, OfFiles
from boardnet_show.judging.program import Program
from boardnet_show.output import annotations, json_form, junit, sarif, text_lines
from boardnet_show.output.sentences import refusals, verdicts
from checks import boards
from tests.fixtures import common, made

RULES = re.compile(r"\b(lower|upper|bounds?|flood\w*|pieces?|flatten\w*|(?:Gerber|drill|netlist) \d+ [A-Z]\w+)\b")
FIRST = re.compile(r"(PASS|FAIL|UNDECIDED|INCOMPLETE|NOT JUDGED) (\S+): \S")


class Boards(common.Case):
    def shown(self, name, files):
        for file, data in files.items():
            self.write(f"{name}/{file}", data)
        asked, program = options.asked([self.path(name)]), Program(made.STAND_IN, Progress(quiet=True))
        asked.jobs = 1
        return one_board.show(asked.paths[0], asked, program, self.path("scratch", name))

    def told(self, shown):
        """All that is told of a board without --explain, each form as one text."""
        yield "\n".join(text_lines.reader(shown, True))
        yield "\n".join(annotations.rows(shown))
        yield junit.junit_text([shown])
        yield sarif.sarif_text([shown])

    def test_plain_words(self):
        """Of each kind of board: mended, flattened, between bounds, tied, with hints, by labels, refused, not judged."""
        words = {}
        for name, files in boards.made().items():
            with self.subTest(name):
                shown = self.shown(name, files)
                for text in self.told(shown):
                    self.assertIsNone(RULES.search(text.replace(self.scratch, "")), text)
                first = FIRST.match(next(iter(text_lines.reader(shown, False))))
                words.setdefault(first[1], name)
                self.assertEqual(first[1], verdicts.WORDS.get(shown.status, first[1]))
                self.assertEqual(first[2], self.path(name))
                told = json.loads(json_form.json_text([shown]))["boards"][0]
                self.assertEqual((told["line"], told["verdict"]), (shown.line, f"{shown.word}: {shown.verdict}"))
                self.assertIn(
                    f"explained: the answer in the words of the rules: {shown.line}",
                    "\n".join(text_lines.reader(shown, False, True)),
                )
        self.assertEqual(set(words), {"PASS", "FAIL", "UNDECIDED", "NOT JUDGED"})


class Lines(unittest.TestCase):
    """The words of answers that few boards have."""

    def words(self, answer, *rewritten, points=3, besides=()):
        return verdicts.words(answer, points, rewritten, besides)

    def test_how_sure(self):
        both = Both("", "", 2, 1)
        rows = [
            (Answer(0, EXACT, ""), "Certain: the copper is known exactly, "),
            (
                Answer(1, BETWEEN, "", both=both._replace(is_proved=True)),
                "2 faults are certain, 1 is possible. Certain: .*, by proof",
            ),
            (Answer(1, BETWEEN, "", both=both), "Certain: .* is tested, not proved"),
            (
                Answer(11, BETWEEN, "", both=both._replace(certain=0)),
                "^1 fault is possible. The copper there is not known closely",
            ),
        ]
        for answer, words in rows:
            self.assertRegex(self.words(answer), words)
        trial = Answer(0, EXACT, "", is_trial=True)
        self.assertEqual(self.words(trial), "copper and the netlist agree at all 3 test points.")

    def test_counts(self):
        """What counts where something is declared or waived is told in place of what the report has."""
        found = Answer(1, EXACT, "", found=Counts(2, 1, 0, 0))
        self.assertRegex(self.words(found), "^2 opens and 1 short. ")
        self.assertRegex(
            self.words(found._replace(counts=Counts(0, 0, 0, 1), ties=0)),
            "^1 declared tie that no copper makes, with 0 declared ties. ",
        )

    def test_copies(self):
        answer = Answer(0, EXACT, "")
        self.assertRegex(
            self.words(answer, "a", "b"), r"Judged on copies of a and b, rewritten to say the same in simpler words\.$"
        )
        self.assertRegex(self.words(answer, *"abcd"), "Judged on copies of 4 files, ")
        proved = answer._replace(of_files=OfFiles(True, ("a",), ("b",)))
        self.assertRegex(self.words(proved, "a", "b"), r"words; it is proved of the files as they came, but for b\.$")

    def test_kinds(self):
        """Each kind of refusal that the program knows has words of its own."""
        lists = runpy.run_path(os.path.join(common.TOOLS, "lists"))
        kinds = {}
        for _, source, kind in lists["KINDS"]:
            with open(os.path.join(common.TOP, source), encoding="utf-8") as file:
                kinds[kind] = [name for _, name in lists["rows"](file.read(), kind)]
        self.assertEqual({*refusals.COPPER}, {*kinds["GerberKind"], *kinds["FlattenKind"]})
        self.assertEqual([*refusals.DRILL], kinds["DrillKind"])
        self.assertEqual([*refusals.NETLIST], kinds["RecordKind"])
        for form in refusals.OF_FORM:
            for kind in refusals.OF_FORM[form]:
                self.assertIsNone(RULES.search(refusals.refused(Refusal("f", form, 1, kind, "line", 1))), kind)

    def test_lines_of_the_program(self):
        rows = [
            ("m.json: frame too large: -50000000 0 10010000000 500000000", "from -5.000, 0.000 to 1001.000, 50.000 mm"),
            ("F.gbr: longer than 67108864 bytes", r"^F\.gbr is larger than a file may be"),
            ("something new", "^something new$"),
        ]
        for line, words in rows:
            self.assertRegex(refusals.of_line(line), words)
        refusal = of_line("F.gbr: Gerber 12 Macro at command 15, byte 489")
        self.assertEqual(
            refusals.refused(refusal), "F.gbr, command 15: an aperture macro, which is a pad of a shape of its own"
        )
        self.assertTrue(refusals.refused(refusal, 7).startswith("F.gbr, line 7: "))


if __name__ == "__main__":
    unittest.main()
