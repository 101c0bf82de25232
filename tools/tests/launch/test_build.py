"""The first call, over a stand-in for the toolchain."""
import io
import os
import re
import shutil
import signal
import subprocess
import sys
import time
from unittest import mock

from tests.fixtures import common, made
from tests.fixtures.made import flash, gerber, manifest, netlist, record

sys.path.insert(0, os.path.join(common.TOOLS, "launch"))
import build  # noqa: E402
import order  # noqa: E402
import progress  # noqa: E402
import proved  # noqa: E402
import times  # noqa: E402
import trial  # noqa: E402

FIRST = "NOT PROVED YET (trial build): "
# Seconds for what takes a moment: the machine may be busy.
PATIENCE = 100
# A trial runs a program of its own until it is ended, or does what RT_TRIAL says.
RT = """#!/bin/sh
echo "$PWD: rt $*" >>"$RT_CALLS"
case "$1" in
  version) echo "${RT_LINE-@LINE@}" ;;
  ci) eval "$RT_CI" ;;
  try)
    echo "tried $*" >>"$RT_CALLS.data"
    [ "$RT_TRIAL" != slow ] || sleep 300
    while [ "$RT_TRIAL" = held ] && [ ! -e "$RT_CALLS.hold" ]; do sleep 0.05; done
    [ "$RT_TRIAL" != refused ] || { echo "error: it does not compile" >&2; echo "run=none proved=no" >&2; exit 1; }
    mkdir -p "$TMPDIR/rt-try/native"
    cp "$(readlink -f "$(command -v sleep)")" "$TMPDIR/rt-try/native/program"
    "$TMPDIR/rt-try/native/program" 300 ;;
esac
"""
# It makes a library where those that it is told of are whole. The crate high waits to be let go, or for ever, where RT_PROOF says so; where
# memory does not last, it is killed unless it has one job.
RATTLE = """#!/bin/sh
name=$3 root=$4 words=$*
echo "$PWD: $1 $name" >>"$RT_CALLS"
[ -e "$root" ] || { echo "error: there is no file $root"; exit 2; }
while [ $# -gt 0 ]; do
  case "$1" in
    --extern) [ -d "${2#*=}" ] || { echo "error: ${2%%=*} is not built"; exit 2; } ;;
    -L) [ -d "${2#dependency=}" ] || { echo "error: there is no folder $2"; exit 2; } ;;
    --jobs) jobs=$2 ;;
    -o) made=$2 ;;
  esac
  shift
done
touch "$TMPDIR/scratch"
case "$RT_PROOF $name" in
  "held high") while [ ! -e "$RT_CALLS.proof" ]; do sleep 0.05; done ;;
  "slow high") sleep 300 ;;
  "large high") [ "$jobs" = 1 ] || { [ ! -e "$RT_CALLS.large" ] && touch "$RT_CALLS.large" && kill -9 $$; } ;;
esac
case "$RT_PROOF $name" in "refused "* | "refused-last boardnet") echo "error: $name is not proved"; exit 1 ;; esac
case "$words" in
  *" --statements "*) mkdir "$made" && echo "$name" >"$made/format" ;;
  *" --toolchain "*) printf '#!/bin/sh\\necho built "$@"\\n' >"$made" ;;
esac
echo "logic=proved"
"""
LINK = """#!/bin/sh
echo "$PWD: link" >>"$RT_CALLS"
while [ "$1" != -o ]; do shift; done
[ -z "$RT_FAILS" ] || { echo "error: not linked"; exit 1; }
cp "$3" "$2" && chmod +x "$2"
"""
# What the trial build is, once it was copied while it ran.
TRIAL = """#!/bin/sh
[ $# -gt 0 ] || { echo "boardnet: words not understood" >&2; exit "${TRIAL_STARTS-2}"; }
[ -z "$TRIAL_POINTS" ] || printf 'boardnet 2\\npoints %s\\n' "$TRIAL_POINTS"
printf 'tried %s\\n' "$*"
echo "boardnet: ${TRIAL_SAYS-agrees}" >&2
exit "${TRIAL_ENDS-0}"
"""
ALL = ["low", "high", "boardnet"]
NOT_PROVED = "boardnet: NOT PROVED YET: a trial build of these sources, with run-time checks and no proof, says: agrees. `boardnet prove` proves the program\n"
MADE = "boardnet: the program is not proved yet: making a trial build, in about a minute; `boardnet prove` proves it, in up to an hour\n"
PROVED = "boardnet: the program is proved and built: every command answers by it\n"


def toolchain():
    with open(os.path.join(common.TOOLS, "toolchain")) as file:
        return file.read().strip()


class Checkout(common.Case):
    """A checkout whose toolchain is a stand-in."""

    def setUp(self):
        super().setUp()
        self.write("kit/bin/rt", RT.replace("@LINE@", toolchain()), 0o755)
        self.write("kit/bin/rattle", RATTLE, 0o755)
        self.write("kit/bin/rattle-link", LINK, 0o755)
        for name in ("std", "thiserror"):
            self.write(f"kit/rlibs/{name}.rlib/format", "")
        os.makedirs(self.path("bin"))
        os.symlink(self.path("kit", "bin", "rt"), self.path("bin", "rt"))
        self.checkout("top")

    def checkout(self, name):
        os.makedirs(self.path(name))
        shutil.copy(os.path.join(common.TOP, "boardnet"), self.path(name))
        shutil.copytree(common.TOOLS, self.path(name, "tools"), ignore=shutil.ignore_patterns("tests", "__pycache__"))
        # Memory that other work leaves is no matter here.
        build = f"{name}/tools/launch/build.py"
        self.write(build, self.read(build).replace("MEMORY_OF_A_CHECK = 3 << 30", "MEMORY_OF_A_CHECK = 1"), 0o755)
        # A program that is copied while it runs is no script: this one answers in its place.
        module = f"{name}/tools/launch/trial.py"
        self.write(
            module,
            self.read(module).replace("return data", f"return open({self.write('trial', TRIAL)!r}, 'rb').read()"),
        )
        self.write(
            f"{name}/crates.txt", "# lowest first\nlow:\nhigh: low thiserror\nboardnet: high low\nlow_tests: low\n"
        )
        for crate in ("low", "high", "boardnet", "low_tests"):
            self.write(f"{name}/crates/{crate}/src/{'main' if crate == 'boardnet' else 'lib'}.rt", "// a source\n")

    def environment(self, **more):
        path = self.path("bin") + os.pathsep + os.environ["PATH"]
        os.makedirs(self.path("tmp"), exist_ok=True)
        return dict(
            PATH=path, RT_CALLS=self.path("calls"), XDG_CACHE_HOME=self.path("cache"), TMPDIR=self.path("tmp"), **more
        )

    def launch(self, *words, top="top", **more):
        return self.run_words([self.path(top, "boardnet"), *words], environment=self.environment(**more))

    def waited(self, *words, **more):
        """A call that waits for the proved program."""
        return self.launch("--wait", *words, **more)

    def begun(self, *words, folder="", **more):
        """A call that runs by itself."""
        how = {
            "env": dict(os.environ, **self.environment(**more)),
            "stdout": subprocess.PIPE,
            "stderr": subprocess.PIPE,
            "start_new_session": True,
        }
        running = subprocess.Popen(
            [self.path("top", "boardnet"), *words], cwd=self.path(folder) if folder else self.scratch, **how
        )
        self.addCleanup(running.stdout.close)
        self.addCleanup(running.stderr.close)
        return running

    def tries(self):
        """How often the toolchain made a trial build."""
        return sum(": rt try" in line for line in self.calls_so_far())

    def forget(self):
        """Nothing is proved and nothing kept."""
        self.calls()
        for path in (self.path("cache"), self.path("top", "crates", "boardnet", "out")):
            shutil.rmtree(path, ignore_errors=True)

    def calls(self):
        """The crates that were proved since, in the order in which they were begun."""
        text = self.calls_so_far()
        for name in os.listdir(self.scratch):
            if name.startswith("calls"):
                os.remove(self.path(name))
        return [line.split(": build ")[1] for line in text if ": build " in line]

    def calls_so_far(self):
        return self.read("calls").splitlines() if os.path.exists(self.path("calls")) else []

    def wait_for(self, words):
        """Waits until rt was called with words."""
        deadline = time.monotonic() + PATIENCE
        while words not in "\n".join(self.calls_so_far()):
            self.assertLess(time.monotonic(), deadline, words)
            time.sleep(0.02)

    def nothing_is_left(self):
        self.assertEqual(os.listdir(self.path("tmp")), [])
        self.assertEqual(
            [
                name
                for name in os.listdir(self.path("cache"))
                if name not in ("boardnet", "boardnet-proved", "boardnet-python", "boardnet-trials")
            ],
            [],
        )
        inside = [name for name in os.listdir("/proc") if name.isdigit() and self.works_here(name)]
        self.assertEqual(inside, [])

    def proved(self):
        """What is kept of crates."""
        kept = self.path("cache", "boardnet-proved")
        return sorted(name for it in os.listdir(kept) for name in os.listdir(os.path.join(kept, it)) if name != "sum")

    def works_here(self, number):
        try:
            return os.readlink(f"/proc/{number}/cwd").startswith(os.path.realpath(self.scratch))
        except OSError:
            return False


class Build(Checkout):
    """Calls that wait for the proof."""

    def test_first_call_and_later_ones(self):
        status, out, notes = self.waited("trial", "1", "2", BOARDNET_TELLS_EVERY="0")
        self.assertEqual((status, out), (0, "built trial 1 2\n"))
        self.assertIn("boardnet: proving 3 crates, and then building the program; it can be interrupted", notes)
        self.assertIn(" of 3 crates proved, 0:0", notes)
        self.assertIn("proving boardnet", notes)
        self.assertEqual(self.calls(), ALL)
        self.assertEqual(self.proved(), ["boardnet", "high.rlib", "low.rlib"])
        self.nothing_is_left()
        self.assertEqual(self.waited("check", "x")[1:], ("built check x\n", ""))
        self.assertEqual(self.calls(), [])

    def test_only_what_is_changed_is_proved_again(self):
        self.waited("x")
        self.calls()
        rows = [
            # what is written, the toolchain, what is proved then
            ("crates/high/src/lib.rt", {}, ["high", "boardnet"]),
            ("crates/high/proofs/Lib.antt", {}, ["high", "boardnet"]),
            ("crates/boardnet/src/main.rt", {}, ["boardnet"]),
            ("crates/low_tests/src/lib.rt", {}, []),
            ("crates/low/specs/Lib.antt", {}, ALL),
            ("crates/low_tests/src/lib.rt", {"RT_LINE": "another"}, ALL),
        ]
        for at, (name, toolchain_is, wanted) in enumerate(rows):
            with self.subTest(name=name):
                self.write(f"top/{name}", f"// text {at}\n")
                self.assertEqual(self.waited("x", **toolchain_is)[1], "built x\n")
                self.assertEqual(self.calls(), wanted)
        # What was proved in one checkout is proved in another.
        shutil.rmtree(self.path("cache", "boardnet"))
        self.checkout("other")
        self.write("other/crates/high/src/lib.rt", "// a text of its own\n")
        self.assertEqual((self.waited("x", top="other")[1], self.calls()), ("built x\n", ["high", "boardnet"]))

    def test_so_many_are_kept(self):
        kept = [self.path(f"cache/boardnet-proved/{k:064}") for k in range(proved.MOST)]
        for k, path in enumerate(kept):
            os.makedirs(path)
            os.utime(path, (k, k))
        self.waited("x")
        self.assertEqual([k for k, path in enumerate(kept) if not os.path.exists(path)], [0, 1, 2])

    def test_a_call_waits_for_another(self):
        how = {
            "env": dict(os.environ, **self.environment(RT_PROOF="held")),
            "stdout": subprocess.PIPE,
            "stderr": subprocess.PIPE,
        }
        calls = [subprocess.Popen([self.path("top", "boardnet"), "--wait", "x"], cwd=self.scratch, **how)]
        self.wait_for(": build high")
        calls.append(subprocess.Popen([self.path("top", "boardnet"), "--wait", "y"], cwd=self.scratch, **how))
        said = calls[1].stderr.readline().decode()
        self.assertEqual(said, "boardnet: another call proves the crates of this checkout: waiting for it\n")
        self.write("calls.proof", "")
        self.assertEqual([it.communicate(timeout=PATIENCE)[0] for it in calls], [b"built x\n", b"built y\n"])
        self.assertEqual(self.calls(), ALL)
        self.nothing_is_left()

    def test_killed(self):
        how = {"env": dict(os.environ, **self.environment(RT_PROOF="slow")), "stderr": subprocess.DEVNULL}
        running = subprocess.Popen([self.path("top", "boardnet"), "--wait", "x"], cwd=self.scratch, **how)
        self.wait_for(": build high")
        running.kill()
        running.wait()
        self.assertEqual(self.waited("x")[1], "built x\n")
        self.assertEqual(self.calls(), ["low", "high", "high", "boardnet"])
        self.assertEqual([name for name in os.listdir(self.path("cache")) if "proof" in name], [])

    def test_memory_does_not_last(self):
        self.assertEqual(
            (self.waited("x", RT_PROOF="large")[1], self.calls()), ("built x\n", ["low", "high", "high", "boardnet"])
        )

    def test_another_user(self):
        """What lies in a folder of another user does not count as proved."""
        if os.geteuid():
            self.skipTest("only root can give a folder away")
        os.makedirs(self.path("cache", "boardnet-proved"))
        os.chown(self.path("cache", "boardnet-proved"), 1, 1)
        status, _, notes = self.waited("x")
        self.assertEqual(
            (status, "boardnet-proved: it belongs to another user: nothing can be proved" in notes, self.calls()),
            (70, True, []),
        )

    def test_touched_and_changed(self):
        self.waited("x")
        self.calls()
        source = self.path("top", "crates", "low", "src", "lib.rt")
        later = time.time() + 10
        os.utime(source, (later, later))
        # The bytes are those that were proved: nothing is built.
        self.assertEqual(self.waited("x")[1:], ("built x\n", ""))
        self.assertEqual(self.calls(), [])
        self.write("top/crates/low/src/lib.rt", "// another\n")
        os.utime(source, (later + 10, later + 10))
        self.assertEqual(self.waited("x")[0], 0)
        self.assertEqual(self.calls(), ALL)

    def test_another_checkout_takes_it(self):
        self.waited("x")
        self.calls()
        self.checkout("other")
        status, out, notes = self.waited("x", top="other")
        self.assertEqual((status, out), (0, "built x\n"))
        self.assertIn("taking the program", notes)
        self.assertEqual(self.calls(), [])
        for name in os.listdir(self.path("cache", "boardnet")):
            self.write(f"cache/boardnet/{name}", "#!/bin/sh\necho bad\n", 0o755)
        # One that is not whole is not taken, nor such a library.
        self.checkout("third")
        self.assertEqual((self.waited("x", top="third")[1:], self.calls()), (("built x\n", ""), []))
        shutil.rmtree(self.path("cache", "boardnet"))
        for at, _, files in os.walk(self.path("cache", "boardnet-proved")):
            for name in set(files) & {"boardnet", "format"}:
                self.write(os.path.join(at, name), "")
        self.checkout("fourth")
        self.assertEqual((self.waited("x", top="fourth")[1], self.calls()), ("built x\n", ALL))

    def gate(self, **more):
        """The status of the gate, and what it says, over a program that is there."""
        self.write("top/crates/boardnet/out/boardnet", "#!/bin/sh\necho gate\n", 0o755)
        self.write("top/tools/test", "#!/bin/sh\nexit ${RT_TESTS-0}\n", 0o755)
        os.makedirs(self.path("top", ".ci"), exist_ok=True)
        shutil.copy(os.path.join(common.TOP, ".ci", "run"), self.path("top", ".ci"))
        status, _, notes = self.run_words(
            ["bash", self.path("top", ".ci", "run")], environment=self.environment(**more)
        )
        return status, notes

    def test_what_the_gate_left(self):
        self.assertEqual(self.gate(), (0, ""))
        self.assertEqual(self.waited("x")[1:], ("gate\n", ""))
        self.checkout("other")
        self.assertEqual(self.waited("x", top="other")[1], "gate\n")
        self.assertEqual(self.calls(), [])

    def test_what_the_gate_notes(self):
        rows = [
            # what happens while rt ci runs, how the tests end, how the gate ends, whether it notes the program, what it says
            ("", "5", 5, True, ""),
            ("exit 3", "5", 3, False, ""),
            (
                "echo '// changed' >>crates/low/src/lib.rt",
                "0",
                0,
                False,
                "boardnet: the sources changed during the gate: its program is not noted as proved\n",
            ),
            (
                "rm crates/boardnet/out/boardnet",
                "0",
                0,
                False,
                f"boardnet: {self.path('top', 'crates', 'boardnet', 'out', 'boardnet')}: No such file or directory\n",
            ),
        ]
        for meanwhile, tests, wanted, is_noted, said in rows:
            with self.subTest(meanwhile=meanwhile):
                self.assertEqual(self.gate(RT_CI=meanwhile, RT_TESTS=tests), (wanted, said))
                note = self.path("top", "crates", "boardnet", "out", "boardnet.made")
                self.assertEqual(os.path.exists(note), is_noted)
                if is_noted:
                    os.remove(note)

    def test_times_that_cannot_be_set(self):
        """A checkout that one may not write: the program runs, as its note says what it is of."""
        self.waited("x")
        self.calls()
        module = "top/tools/launch/kept.py"
        self.write(
            module, self.read(module).replace("os.utime(program_of(top), ns=(now, now))", "raise PermissionError")
        )
        ahead = time.time() + 1000
        os.utime(self.path("top", "crates", "low", "src", "lib.rt"), (ahead, ahead))
        self.assertEqual((self.waited("x")[:2], self.calls()), ((0, "built x\n"), []))

    def test_failed(self):
        for how, error in (
            ({"RT_PROOF": "refused-last"}, "error: boardnet is not proved"),
            ({"RT_FAILS": "1"}, "error: not linked"),
        ):
            status, out, notes = self.waited("x", **how)
            self.assertEqual((status, out), (70, ""))
            self.assertIn("the build failed; ", notes)
            self.assertIn(error, notes)
            self.assertIn(error, self.read("top/crates/boardnet/out/build.log"))
        self.assertEqual((self.calls(), self.proved()), (ALL + ["boardnet"], ["high.rlib", "low.rlib"]))
        shutil.rmtree(self.path("cache"))
        status, _, notes = self.waited("x", RT_PROOF="refused")
        self.assertEqual((status, "error: low is not proved" in notes, self.calls()), (70, True, ["low"]))
        self.nothing_is_left()

    def test_other_toolchain(self):
        notes = self.waited("x", RT_LINE="another")[2]
        self.assertIn(f"rt version prints another; these sources are made for {toolchain()}", notes)

    def test_other_kit_of_the_same_logic(self):
        notes = self.waited("x", RT_LINE="another-kit logic " + toolchain().partition(" logic ")[2])[2]
        self.assertNotIn("rt version", notes)

    def test_interrupted(self):
        """A proof, as a terminal interrupts it, to all of the group, or to the one process; by a signal, or as the terminal closes."""
        for number, is_for_all, words in (
            (signal.SIGINT, True, ["prove"]),
            (signal.SIGTERM, False, ["--wait", "x"]),
            (signal.SIGHUP, False, ["prove"]),
        ):
            with self.subTest(signal=number):
                self.calls()
                running = self.begun(*words, RT_PROOF="slow")
                self.wait_for(": build high")
                if is_for_all:
                    os.killpg(running.pid, number)
                else:
                    running.send_signal(number)
                said = running.communicate(timeout=PATIENCE)[1].decode()
                self.assertEqual(running.returncode, 130)
                self.assertIn("the next call goes on there", said)
                self.nothing_is_left()
                self.assertEqual(self.proved(), ["low.rlib"])
        # A call meanwhile is answered by a trial, and proves nothing.
        self.calls()
        self.assertEqual((self.launch("x")[0], self.calls()), (75, []))
        status, out, notes = self.launch("prove")
        self.assertEqual((status, out, notes.endswith(PROVED), self.calls()), (0, "", True, ["high", "boardnet"]))
        self.assertEqual(
            (self.launch("x"), self.launch("prove"), self.calls()), ((0, "built x\n", ""), (0, "", PROVED), [])
        )

    def test_signals_together(self):
        script = """
import os, signal, sys
sys.path.insert(0, sys.argv[1])
import children
for number in children.heard():
    signal.signal(number, children.interrupt)
signal.pthread_sigmask(signal.SIG_BLOCK, children.heard())
for number in children.heard():
    os.kill(os.getpid(), number)
try:
    try:
        signal.pthread_sigmask(signal.SIG_UNBLOCK, children.heard())
    finally:
        print("cleaned up")
except KeyboardInterrupt:
    print("interrupted")
"""
        self.assertEqual(
            self.run_words([sys.executable, "-c", script, os.path.join(common.TOOLS, "launch")]),
            (0, "cleaned up\ninterrupted\n", ""),
        )


class Trials(Checkout):
    """Calls before the program is proved, and how they meet a proof, an interrupt and one another."""

    def test_answers_before_the_proof(self):
        """The first call makes a trial build, the next ones have it; nothing is proved. Its text is put for whoever asks for it."""
        self.assertEqual(self.launch("check", "x"), (75, "", MADE + NOT_PROVED))
        self.assertEqual(self.launch("check", "x"), (75, "", NOT_PROVED))
        self.assertEqual(self.launch("--trial", "check", "x"), (0, "tried check x\n", NOT_PROVED))
        self.assertEqual((self.tries(), self.calls(), self.proved_so_far()), (1, [], []))
        self.nothing_is_left()

    def proved_so_far(self):
        return self.proved() if os.path.exists(self.path("cache", "boardnet-proved")) else []

    def test_statuses(self):
        """A yes or a no is none before the proof; what else a call ends with stays."""
        for status in range(7):
            self.assertEqual(self.launch("check", "x", TRIAL_ENDS=str(status))[:2], (75 if status < 2 else status, ""))
            self.assertEqual(
                self.launch("--trial", "check", "x", TRIAL_ENDS=str(status))[:2], (status, "tried check x\n")
            )
        # Of which nothing was judged says so.
        notes = self.launch("check", "x", TRIAL_POINTS="0")[2]
        self.assertEqual(
            (notes.startswith(NOT_PROVED), "NOTHING WAS JUDGED: x names a netlist without test points" in notes),
            (True, True),
            notes,
        )
        status, out, notes = self.launch(
            "check", "x", TRIAL_SAYS="t.gbr: Gerber 4 BadWord at command 1, byte 0", TRIAL_ENDS="3"
        )
        self.assertEqual(
            (status, "no proof, says: t.gbr: Gerber 4 BadWord at command 1, byte 0. `" in notes), (3, True), notes
        )

    def test_in_place(self):
        """It runs where the program would, with the same words."""
        self.write("a=b/m.json", "{}")
        self.write("r.txt", "")
        for words, wanted in (
            (["check", "a=b"], "check m.json"),
            (["audit", "a=b", "r.txt"], f"audit m.json {os.path.realpath(self.path('r.txt'))}"),
            (["trial", "1", "2"], "trial 1 2"),
        ):
            self.assertEqual(self.launch("--trial", *words)[:2], (0, f"tried {wanted}\n"))

    def test_beside_a_proof(self):
        """A call beside a proof answers at once; once it has ended, by the proved program."""
        proof = self.begun("prove", RT_PROOF="held")
        self.wait_for(": build high")
        self.assertEqual(self.launch("x"), (75, "", MADE + NOT_PROVED))
        self.assertEqual(self.launch("x"), (75, "", NOT_PROVED))
        self.write("calls.proof", "")
        self.assertEqual(proof.communicate(timeout=PATIENCE)[1].decode()[-len(PROVED) :], PROVED)
        self.assertEqual(
            (proof.returncode, self.launch("x"), self.launch("--trial", "x")),
            (0, (0, "built x\n", ""), (0, "built x\n", "")),
        )
        self.nothing_is_left()

    def test_a_proof_beside_a_trial(self):
        """A trial build that is being made does not keep a proof waiting. Where that has ended meanwhile, it answers."""
        trying = self.begun("x", RT_TRIAL="held")
        self.wait_for("rt try")
        self.assertEqual(self.launch("--wait", "x")[:2], (0, "built x\n"))
        self.write("calls.hold", "")
        out, notes = trying.communicate(timeout=PATIENCE)
        self.assertEqual((trying.returncode, out, notes.decode()), (0, b"built x\n", MADE))

    def test_two_calls(self):
        """The second waits for the first one's trial build, and has it."""
        calls = [self.begun("x", RT_TRIAL="held")]
        self.wait_for("rt try")
        calls.append(self.begun("y", RT_TRIAL="held"))
        said = [calls[1].stderr.readline().decode() for _ in "ab"]
        self.assertEqual(said, [MADE, "boardnet: another call makes a trial build: waiting for it\n"])
        self.write("calls.hold", "")
        self.assertEqual([(it.communicate(timeout=PATIENCE)[0], it.returncode) for it in calls], [(b"", 75)] * 2)
        self.assertEqual(self.tries(), 1)
        self.nothing_is_left()

    def test_interrupted_trial(self):
        """An interrupt, a signal or a closed terminal leaves nothing; the next call makes it. A call that was killed leaves what the next removes."""
        for number, is_for_all in (
            (signal.SIGINT, True),
            (signal.SIGTERM, True),
            (signal.SIGHUP, True),
            (signal.SIGKILL, False),
        ):
            self.calls()
            running = self.begun("check", "x", RT_TRIAL="slow")
            self.wait_for("rt try")
            (os.killpg if is_for_all else os.kill)(running.pid, number)
            if number == signal.SIGKILL:
                subprocess.run(["pkill", "-KILL", "-s", str(running.pid), "python3"], check=False)
            running.communicate(timeout=PATIENCE)
            self.assertIn(running.returncode, (130, -number), number)
            if number != signal.SIGKILL:
                self.nothing_is_left()
        self.calls()
        self.assertEqual((self.launch("x")[0], self.tries()), (75, 1))
        self.nothing_is_left()

    def test_no_trial(self):
        """Where the toolchain makes none, that is said, and the proof does not wait for it."""
        status, out, notes = self.launch("x", RT_TRIAL="refused")
        self.assertEqual((status, out), (70, ""))
        self.assertIn(
            "there is no trial build of these sources (error: it does not compile); `boardnet prove` proves them", notes
        )
        self.nothing_is_left()
        self.assertEqual(self.waited("x", RT_TRIAL="refused")[:2], (0, "built x\n"))

    def test_what_is_kept(self):
        """A trial of other sources, of another toolchain or with other bytes is not taken; the oldest go."""
        self.launch("x")
        kept = self.path("cache", "boardnet-trials")
        (name,) = os.listdir(kept)
        self.write(f"cache/boardnet-trials/{name}", "#!/bin/sh\necho boardnet: spoilt >&2\n", 0o755)
        self.assertEqual((self.launch("x")[2], self.tries()), (MADE + NOT_PROVED, 2))
        self.write("top/crates/low/src/lib.rt", "// another\n")
        self.assertEqual((self.launch("x")[0], self.tries()), (75, 3))
        self.assertEqual((self.launch("x", RT_LINE="another")[0], self.tries()), (75, 4))
        self.assertEqual(len(os.listdir(kept)), trial.MOST)
        self.checkout("other")
        self.write("other/crates/low/src/lib.rt", "// another\n")
        self.assertEqual((self.launch("x", top="other")[2], self.tries()), (NOT_PROVED, 4))

    def test_who_may_keep_it(self):
        if os.geteuid():
            self.skipTest("only root can give a folder away")
        os.makedirs(self.path("cache", "boardnet-trials"))
        os.chown(self.path("cache", "boardnet-trials"), 1, 1)
        status, out, notes = self.launch("x")
        self.assertEqual((status, out, "boardnet-trials: it belongs to another user" in notes), (70, "", True), notes)

    def test_the_bytes_of_what_runs(self):
        """The file of a program that runs from a folder, whichever loader runs it; none of another folder, and none of another name."""
        sleep = os.path.realpath(shutil.which("sleep"))
        loader = [
            next(line.split()[-1] for line in self.read(f"/proc/{os.getpid()}/maps").splitlines() if "/ld-" in line)
        ]
        for name, by, is_found in (
            ("a/program", [], True),
            ("a/program", loader, True),
            ("a/b/program", [], True),
            ("a/other", [], False),
        ):
            shutil.rmtree(self.path("a"), ignore_errors=True)
            shutil.copy(sleep, self.write(name, ""))
            os.chmod(self.path(name), 0o755)
            with subprocess.Popen([*by, self.path(name), "300"]) as running:
                try:
                    self.wait_until_mapped(running, self.path(name))
                    found = [trial.running(self.path(folder)) for folder in ("a", "bin")]
                    with open(sleep, "rb") as file:
                        self.assertEqual(found, [file.read() if is_found else None, None])
                finally:
                    running.kill()

    def wait_until_mapped(self, running, path):
        deadline = time.monotonic() + PATIENCE
        while not re.search(rf" r-xp .* {re.escape(os.path.realpath(path))}\n", self.read(f"/proc/{running.pid}/maps")):
            self.assertLess(time.monotonic(), deadline)

    def test_a_trial_that_does_not_start(self):
        """A copy that the system does not run is not kept, and answers nothing."""
        status, out, notes = self.launch("x", TRIAL_STARTS="1")
        self.assertEqual(
            (status, out, "there is no trial build of these sources (it does not run on this system)" in notes),
            (70, "", True),
            notes,
        )
        self.assertEqual(os.listdir(self.path("cache", "boardnet-trials")), [])

    def test_install_waits(self):
        self.assertIn(": build high", "\n".join([self.launch("install", self.path("prefix"))[2], *self.calls_so_far()]))
        self.assertEqual((self.tries(), self.proved_so_far()), (0, ["boardnet", "high.rlib", "low.rlib"]))

    def test_show(self):
        """It tells the files at once, then has the trial build made; what it says goes to standard error, unless that is asked for."""
        self.write("board/m.json", '{"copper":["t.gbr"],"drills":[],"netlist":"n.ipc"}')
        self.write("board/t.gbr", "M02*\n")
        self.write("board/n.ipc", "317A\n999\n")
        status, out, notes = self.launch(
            "show", "board", BOARDNET="", TRIAL_ENDS="3", TRIAL_SAYS="t.gbr: Gerber 4 BadWord at command 1, byte 0"
        )
        lines, refused = (
            notes.splitlines(),
            f"{FIRST}NOT JUDGED board: t.gbr, line 1: a command that cannot be read: ",
        )
        self.assertEqual(
            lines[0], "boardnet: board: 1 copper files (t.gbr), 0 drill files, netlist n.ipc with 1 test records"
        )
        self.assertEqual((status, out, lines[1] + "\n", lines[2][: len(refused)]), (3, "", MADE, refused))
        status, out, notes = self.launch(
            "--trial",
            "show",
            "board",
            BOARDNET="",
            TRIAL_ENDS="3",
            TRIAL_SAYS="t.gbr: Gerber 4 BadWord at command 1, byte 0",
        )
        self.assertEqual((status, out[: len(refused)], notes), (3, refused, ""))
        # What could not be judged is no answer, whichever program says it.
        self.assertEqual((self.launch("show", "board", BOARDNET="")[0], self.calls(), self.tries()), (12, [], 0))
        os.makedirs(self.path("empty"))
        self.forget()
        # A folder of which no manifest can be made wants no program.
        self.assertEqual((self.launch("show", "empty", BOARDNET="")[0], self.tries()), (10, 0))
        self.assertEqual((self.launch("show", "board", RT_TRIAL="refused", BOARDNET="")[0], self.calls()), (70, []))
        self.nothing_is_left()

    def test_a_yes_or_a_no_of_show(self):
        """By a trial it is none, unless the caller asked for the trial; every form has the word."""
        for other, status in (("A", 0), ("B", 1)):
            copper = gerber(*flash(10, (0, 0)), *made.draw(11, (0, 0), (5, 0)), *flash(10, (5, 0)))
            for name, text in (
                ("m.json", manifest()),
                ("top.gbr", copper),
                ("n.ipc", netlist(record("A", "J1.1", 0, 0), record(other, "J1.2", 5, 0))),
            ):
                self.write(f"board/{name}", text)
            for how, wanted in (("unasked", 75), ("1", status), ("", status)):
                told, out, _ = self.run_words(
                    [
                        os.path.join(common.TOOLS, "show"),
                        "board",
                        "--page",
                        "p.html",
                        "--json",
                        "j.json",
                        "--junit",
                        "u.xml",
                    ],
                    environment={"BOARDNET": made.STAND_IN, "BOARDNET_TRIAL": how},
                )
                self.assertEqual(
                    (told, [FIRST in text for text in (out, self.read("p.html"), self.read("j.json"))]),
                    (wanted, [bool(how)] * 3),
                    out,
                )

    def test_show_interrupted(self):
        self.write("board/m.json", '{"copper":[],"drills":[],"netlist":"n.ipc"}')
        running = self.begun("show", "board", RT_TRIAL="slow", BOARDNET="")
        self.wait_for("rt try")
        os.killpg(running.pid, signal.SIGTERM)
        running.communicate(timeout=PATIENCE)
        self.assertIn(running.returncode, (130, 128 + signal.SIGTERM, -signal.SIGTERM))
        self.nothing_is_left()

    def test_changed_meanwhile(self):
        """What was proved is a copy: sources that change meanwhile are proved before the command runs."""
        running = self.begun("--wait", "x", RT_PROOF="held")
        self.wait_for(": build high")
        self.write("top/crates/low/src/lib.rt", "// changed\n")
        self.write("calls.proof", "")
        self.assertEqual(running.communicate(timeout=PATIENCE)[0], b"built x\n")
        self.assertEqual(self.calls(), ALL * 2)


class Proved(common.Case):
    def setUp(self):
        super().setUp()
        with mock.patch.dict(os.environ, XDG_CACHE_HOME=self.scratch):
            self.proved = proved.Proved()

    def test_what_another_call_may_put_there_is_not_removed(self):
        with mock.patch("shutil.rmtree") as removed:
            self.assertFalse(self.proved.has("none"))
        removed.assert_not_called()

    def test_what_a_crash_left_gives_way(self):
        self.write("boardnet-proved/one/format", "half")
        self.write("made/format", "whole")
        self.proved.put(self.path("made"), "one")
        self.assertEqual((self.proved.has("one"), self.read("boardnet-proved/one/format")), (True, "whole"))


class Order(common.Case):
    def test_what_is_proved_next(self):
        below = order.below(
            order.uses(
                order.named(
                    "# lowest first\nlow: thiserror\nwide may_abort=1:\nmiddle: low\nboardnet: middle low serde_json # more\n"
                )
            )
        )
        self.assertEqual(below, {"low": set(), "wide": set(), "middle": {"low"}, "boardnet": {"low", "middle"}})
        self.assertEqual(list(order.wanted(below, "middle")), ["low", "middle"])
        chain = order.chains(below, {"low": 2, "wide": 5, "middle": 1, "boardnet": 3})
        self.assertEqual(chain, {"low": 6, "wide": 5, "middle": 4, "boardnet": 3})
        rows = [
            # what is ready, what runs, places, what begins
            (["low", "wide"], {}, 1, {"low": 1}),
            (["wide", "low"], {}, 3, {"low": 2, "wide": 1}),
            (["low", "wide"], {}, 6, {"low": 3, "wide": 3}),
            # The end waits for it: it begins beside others that have all places.
            (["low"], {"wide": 4}, 4, {"low": 2}),
            # It does not wait for these.
            (["middle"], {"wide": 4}, 4, {}),
            (["middle", "boardnet"], {"wide": 1}, 4, {"middle": 1, "boardnet": 2}),
            (["middle", "boardnet"], {"low": 4}, 12, {"middle": 4, "boardnet": 4}),
            (["boardnet"], {}, 12, {"boardnet": 4}),
        ]
        for ready, running, places, wanted in rows:
            with self.subTest(ready=ready, running=running, places=places):
                self.assertEqual(order.chosen(ready, chain, running, places), wanted)

    def test_places(self):
        self.assertEqual([order.places(processors) for processors in (1, 2, 3, 4, 8)], [1, 3, 4, 6, 12])

    def test_memory_limits_the_places(self):
        rows = [(22, 6), (13, 4), (2, 1)]
        for gigabytes, wanted in rows:
            told = mock.mock_open(read_data=f"MemTotal: 1 kB\nMemAvailable: {gigabytes << 20} kB\n")
            with mock.patch("builtins.open", told), mock.patch("os.sched_getaffinity", return_value=range(4)):
                self.assertEqual(build.places(), wanted)


class Times(common.Case):
    def test_what_a_build_tells_is_noted(self):
        self.write("log", times.head("low", 12.4) + "fn low::f: proved\n== high\n" + times.head("new", 3.6))
        self.write("seconds.txt", "high 30\nlow 7\n")
        note = f"import sys; sys.path.insert(0, sys.argv[2]); import times; times.TABLE = sys.argv[3]; sys.exit(times.main(sys.argv[1:2]))"
        words = [
            sys.executable,
            "-B",
            "-c",
            note,
            self.path("log"),
            os.path.join(common.TOOLS, "launch"),
            self.path("seconds.txt"),
        ]
        self.assertEqual(self.run_words(words), (0, "", ""))
        self.assertEqual(self.read("seconds.txt"), "high 30\nlow 12\nnew 4\n")

    def test_work(self):
        sizes = {"low": 100, "wide": 300, "new": 200}
        self.assertEqual(times.work(sizes, {"low": 5, "wide": 15, "gone": 99}), {"low": 5, "wide": 15, "new": 10})
        self.assertEqual(times.work(sizes, {}), sizes)

    def test_table_is_of_crates(self):
        with open(os.path.join(common.TOP, "crates.txt")) as file:
            crates = order.named(file.read())
        self.assertTrue(times.read())
        self.assertLessEqual(set(times.read()), set(crates))
        self.assertEqual(times.read(self.path("none")), {})


class Out(io.StringIO):
    """A terminal of an unknown width."""

    def isatty(self):
        return True

    def fileno(self):
        raise OSError


class Terminal(common.Case):
    def test_seconds_between_lines(self):
        for text, wanted in (("0.5", 0.5), ("soon", 60), ("", 60)):
            with mock.patch.dict(os.environ, BOARDNET_TELLS_EVERY=text):
                self.assertEqual(progress.every(), wanted)

    def test_one_line_on_a_terminal(self):
        out = Out()
        bar = progress.Progress(["low", "high"], out)
        bar.begin()
        bar.told, bar.left = bar.told - 2, 1
        bar.tell()
        bar.end()
        self.assertEqual(out.getvalue().count("\n"), 1)
        self.assertIn("\r" + "boardnet: 1 of 2 crates proved", out.getvalue())
