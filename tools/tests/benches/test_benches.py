"""The benches: each that benches/README.md names is there and says how it is called, those that read files do so with any program,
and what a run takes is its own."""
import importlib.machinery
import importlib.util
import os
import re
import sys
import types
from unittest import mock

from tests.fixtures import common

BENCHES = os.path.join(common.TOP, "benches")
sys.path.append(BENCHES)
import runs

loader = importlib.machinery.SourceFileLoader("faults", os.path.join(BENCHES, "faults"))
loader.exec_module(faults := importlib.util.module_from_spec(importlib.util.spec_from_loader("faults", loader)))


class Benches(common.Case):
    def test_calls_are_as_their_heads_say(self):
        with open(os.path.join(BENCHES, "README.md"), encoding="utf-8") as file:
            calls = re.findall(r"`benches/(\w+)([^`]*)`", file.read())
        self.assertEqual(
            {name for name, _ in calls}, {it.name for it in os.scandir(BENCHES) if it.is_file() and "." not in it.name}
        )
        for name, words in calls:
            with open(os.path.join(BENCHES, name), encoding="utf-8") as file:
                head = file.read().split('"""')[1]
            for word in re.findall(r"--[a-z-]+|PROGRAM", words):
                self.assertIn(word, head, name)
            if words and f"benches/{name} PROGRAM" in head:
                self.assertIn("PROGRAM", words, name)

    def test_reading_one_runs_nothing(self):
        for it in os.scandir(BENCHES):
            if it.is_file() and "." not in it.name:
                with open(it.path, encoding="utf-8") as file:
                    self.assertIn('\nif __name__ == "__main__":\n', file.read(), it.name)

    def test_words_that_are_wanted(self):
        for name in ("gaps", "pages"):
            status, _, notes = self.run_words([os.path.join(BENCHES, name)])
            self.assertEqual((status, f"benches/{name} PROGRAM" in notes), (1, True), name)

    def test_a_run(self):
        held = b"x" * (100 << 20)
        done = runs.run(["sh", "-c", "echo out; echo notes >&2; sleep 0.1; exit 3"])
        self.assertEqual((done.status, done.out, done.notes), (3, b"out\n", "notes\n"))
        self.assertGreaterEqual(done.clock, 0.1)
        self.assertLess(done.held, len(held), "not the peak of what asks")
        burns = "x = b'x' * (60 << 20)\nimport time\nwhile time.process_time() < 0.2: pass"
        clock, processor, most = runs.best(2, [sys.executable, "-c", burns], self.scratch, "out")
        self.assertGreaterEqual(min(clock, processor), 0.15)
        self.assertGreater(most, 60 << 20)
        for words, said in (
            (["sh", "-c", "echo why >&2; exit 4"], "status 4\nwhy$"),
            (["none/there"], "No such file or directory: 'none/there'$"),
        ):
            with self.assertRaisesRegex(SystemExit, said):
                runs.best(1, words, self.scratch, "out")

    def test_faults_in_a_command_that_is_not_understood(self):
        trials = faults.Faults.__new__(faults.Faults)
        trials.passed = trials.failed = 0
        with mock.patch.object(faults, "Trial", lambda *_: types.SimpleNamespace(status=2)), mock.patch(
            "builtins.print"
        ):
            trials.commands(self.scratch, ("chekc m.json",))
        self.assertEqual((trials.passed, trials.failed), (0, 1))

    def test_what_reads_files(self):
        program = common.program()
        for name, lines in (("read_draws", 2), ("read_reports", 3)):
            bench = os.path.join(BENCHES, name)
            self.assertEqual(self.run_words([bench])[0], 2)
            status, out, _ = self.run_words([bench, program, "1"])
            self.assertEqual((status, len(out.splitlines())), (0, lines), name)
