"""The meter of the gate: what it reads of processes, how it sums, and one small run."""
import collections
import importlib.machinery
import importlib.util
import os
import signal
import subprocess
import sys
import time

from tests.fixtures import common

MINUTES = os.path.join(common.TOP, "benches", "minutes")
loader = importlib.machinery.SourceFileLoader("minutes", MINUTES)
loader.exec_module(minutes := importlib.util.module_from_spec(importlib.util.spec_from_loader("minutes", loader)))

# A line of /proc: the name of the process has what parts the fields.
STAT = "71 (a) R (b) S 7 71 5 0 -1 4194560 900 0 0 0 {} {} {} {} 20 0 1 0 8899 1000 200 18446744073709551615"
JOBS = [
    (["rattle", "build", "--crate-name", "low", "src/lib.rt"], "/x/crates/low", ("low", "proof")),
    (["rattle", "build", "--crate-name", "low", "--test", "src/lib.rt"], "/x/crates/low", ("low", "tests")),
    (["rattle", "check", "--crate-name", "low", "src/lib.rt"], "/tmp/rt-edit-ab/low", ("low", "edits")),
    (["rattle-test", "--seconds", "60", "out/low_tests"], "/x/crates/low", None),
]
# A job that burns a second in a child of its own.
BURNS = "import os, time\nif not os.fork():\n    end = time.process_time() + 1.2\n    while time.process_time() < end: pass\n    os._exit(0)\nos.wait(); time.sleep(2)"

# Two processes, one of them in a group of its own, that tell that they run, and wait.
WAITS = "import os, time\nif not os.fork():\n    os.setpgid(0, 0)\nopen(f'runs-{os.getpid()}', 'w').close()\ntime.sleep(300)"
PATIENCE = 100


class Minutes(common.Case):
    def test_process(self):
        tick = minutes.TICK
        read = minutes.process_of(STAT.format(tick, 2 * tick, 3 * tick, 4 * tick))
        self.assertEqual(read, minutes.Process(71, 8899, 7, 5, 10.0))

    def test_jobs(self):
        for words, folder, wanted in JOBS:
            self.assertEqual(minutes.job_of(words, folder), wanted)

    def test_children_count_with_their_job(self):
        rows = [(1, 0, 9), (2, 1, 3), (3, 2, 4), (4, 3, 5), (5, 1, 6), (6, 77, 50)]
        found = minutes.seconds_of_jobs(
            [minutes.Process(pid, 10 * pid, parent, 1, seconds) for pid, parent, seconds in rows], 1
        )
        self.assertEqual(found, {(2, 20): 12, (5, 50): 6})

    def test_rows_and_table(self):
        sums = collections.Counter({("low", "proof"): 1.25, ("high", "tests"): 2.5, ("high", "edits"): 1.0})
        self.assertEqual(minutes.sums_of("total 4.8 min\n" + minutes.rows(sums)), sums)
        lines = minutes.table(sums).splitlines()
        self.assertEqual(lines[0], "| Crate | proof | tests | edits | all |")
        self.assertEqual(
            lines[2:],
            ["| `high` | 0.0 | 2.5 | 1.0 | 3.5 |", "| `low` | 1.2 | 0.0 | 0.0 | 1.2 |", "| all | 1 | 2 | 1 | 5 |"],
        )

    def test_first_call(self):
        using = {"low": [], "wide": [], "middle": ["low"], "boardnet": ["low", "middle"]}
        proofs = {"low": 2.0, "wide": 1.0, "middle": 1.0, "boardnet": 3.0}
        # One processor does all in turn. Of two low begins with two jobs and wide with one, of four both with three; wide ends first,
        # and low goes on with the jobs that it began with. Those above have all.
        two, three, four = (minutes.gain(jobs) for jobs in (2, 3, 4))
        of_two = (two + 1) / 2 + (2 - two) / two + 4 / min(2, three)
        of_four = 1 / min(2, three) + 1 / three + 4 / four
        for processors, wanted in ((1, 7.0), (2, of_two), (4, of_four)):
            self.assertAlmostEqual(minutes.first_call(proofs, using, processors), wanted)
        self.assertEqual(minutes.longest_chain(proofs, using), ["low", "middle", "boardnet"])

    def test_a_run(self):
        command = ["sh", "-c", '"$0" -c "$1" --crate-name low --test; exit 3', sys.executable, BURNS]
        status, out, notes = self.run_words([sys.executable, MINUTES, "--rows", self.path("rows"), *command])
        self.assertEqual((status, notes), (3, ""))
        self.assertRegex(self.read("rows"), r"^low tests 0\.0[2-9]\n$")
        self.assertIn(" processor minutes in ", out)

    def test_ended(self):
        running = subprocess.Popen(
            [sys.executable, MINUTES, sys.executable, "-c", WAITS], cwd=self.scratch, stdout=subprocess.DEVNULL
        )
        deadline = time.monotonic() + PATIENCE
        while len(os.listdir(self.scratch)) < 2:
            self.assertLess(time.monotonic(), deadline)
            time.sleep(0.02)
        running.terminate()
        self.assertEqual(running.wait(timeout=PATIENCE), 128 + signal.SIGTERM)
        self.assertEqual(minutes.children.inside(self.scratch), [])

    def test_rows_that_cannot_be_written(self):
        status, _, notes = self.run_words([sys.executable, MINUTES, "--rows", "none/rows", sys.executable, "-c", WAITS])
        self.assertEqual((status, notes), (1, "none/rows.new: No such file or directory\n"))
        self.assertEqual(minutes.children.inside(self.scratch), [])
