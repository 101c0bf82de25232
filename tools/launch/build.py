#!/usr/bin/env python3
"""Proves and builds the program of a checkout and then runs a command: build.py TOP COMMAND [WORD ..]

The program is taken where it stands for the very same sources: in the checkout, where the gate left it, or among the
programs that this user's earlier builds and gates kept. Else every crate is proved, as many at a time as processors
and memory serve, and the program is built. What was proved stays, so an interrupted call goes on where it was.

    build.py --only TOP             the same, and then runs nothing
    build.py --find TOP             what there is without a proof: `proved`, the path of a kept trial build, or nothing
    build.py --trial TOP [COMMAND [WORD ..]]
                                    the same, and where there is nothing makes a trial build first; then runs the command
    build.py --keep TOP SOURCES     keeps a program that the gate built of sources of this sum, for other checkouts of the same
"""
import os
import re
import signal
import subprocess
import sys
import time

sys.dont_write_bytecode = True
sys.path.insert(0, os.path.dirname(os.path.abspath(__file__)))
try:
    import children  # noqa: E402
    import kept  # noqa: E402
    import order  # noqa: E402
    import trial  # noqa: E402
    from progress import Progress  # noqa: E402
    from proof import Failed, Proof  # noqa: E402
except Exception as fault:
    print(
        f"boardnet: the program cannot be built: Python 3.8 or later with its whole library is wanted ({type(fault).__name__} {fault})",
        file=sys.stderr,
    )
    sys.exit(127)

INTERRUPTED, FAILED = 130, 70
# A check takes one to four gigabytes.
MEMORY_OF_A_CHECK = 3 << 30
# Seconds between two looks at what runs.
LOOK = 0.1


def say(text):
    print(f"boardnet: {text}", file=sys.stderr, flush=True)


def places():
    """How many jobs can run at a time, as far as free memory goes."""
    with open("/proc/meminfo", encoding="ascii") as file:
        free = next((int(line.split()[1]) << 10 for line in file if line.startswith("MemAvailable:")), 0)
    return max(1, min(order.places(len(os.sched_getaffinity(0))), free // MEMORY_OF_A_CHECK))


def line_of_rt():
    done = subprocess.run(
        ["rt", "version"], stdin=subprocess.DEVNULL, stdout=subprocess.PIPE, stderr=subprocess.DEVNULL
    )
    return done.stdout.decode("utf-8", "replace").strip()


class Stop(Exception):
    """A build that ended; the status and the words for the user."""

    def __init__(self, status, words):
        super().__init__(words)
        self.status = status


def why(log):
    """The words for a build that failed: where its log is, and the log's first errors."""
    with open(log, encoding="utf-8", errors="replace") as file:
        errors = [line.rstrip()[:200] for line in file if re.search(r"\berror\b|not proved|^rt: ", line)]
    return "\n".join([f"the build failed; {log} says where", *errors[:5]])


class Build:
    """Proves the crates, and gives the checkout its program."""

    def __init__(self, top, made):
        self.top, self.made = top, made
        self.log = os.path.join(os.path.dirname(kept.program_of(top)), "build.log")
        self.proof = self.progress = None

    def begin(self):
        with open(self.log, "wb"):
            pass
        self.proof.read(self.made.toolchain)
        if not self.proof.left:
            return
        self.progress = Progress(self.proof.left, sys.stderr)
        self.progress.begin()

    def work(self):
        room = places()
        while self.proof.left:
            self.proof.step(room)
            self.progress.left, self.progress.at_work = len(self.proof.left), list(self.proof.running)
            self.progress.tell()
            time.sleep(LOOK)

    def run(self):
        """Whether the program is of the sources that were asked for: they may change meanwhile, and what was proved is a copy. It is
        not where another call was waited for, which may have built it."""
        try:
            os.makedirs(os.path.dirname(self.log), exist_ok=True)
            self.proof = Proof(self.top, self.log, say)
            if self.proof.room.has_waited:
                return False
            self.begin()
            self.work()
            is_same = kept.sum_of_sources(self.proof.sources) == self.made.sources
            if is_same:
                kept.put(self.top, self.proof.program(), self.made)
            return is_same
        except Failed:
            raise Stop(FAILED, why(self.log)) from None
        except OSError as error:
            raise Stop(FAILED, f"{error.filename or self.top}: {error.strerror}: nothing can be proved") from None
        finally:
            with children.heard_later():
                self.end()

    def end(self):
        if self.proof:
            self.proof.end()
        if self.progress:
            self.progress.end()


def logic_of(line):
    """What the line of `rt version` says of the logic: kits of one logic prove the same, whatever their names."""
    return line.partition(" logic ")[2] or line


def warn_of_other_kit(top, found):
    with open(os.path.join(top, "tools", "toolchain"), encoding="utf-8") as file:
        wanted = file.read().strip()
    if logic_of(found) != logic_of(wanted):
        say(f"rt version prints {found or 'nothing'}; these sources are made for {wanted}")


def is_proved(top, made):
    """Whether the program stands for these sources, or did in another checkout, from which it is taken."""
    if kept.is_same(top, made):
        return True
    is_taken = kept.take(top, made)
    if is_taken:
        say("taking the program that this machine built of the same sources")
    return is_taken


def build(top):
    """Returns once the program stands for these sources."""
    toolchain = line_of_rt()
    warn_of_other_kit(top, toolchain)
    while True:
        made = kept.Made(toolchain, kept.sum_of_sources(top))
        if is_proved(top, made):
            return
        if Build(top, made).run():
            kept.keep(top, made)
        # The next turn looks at the sources again: they are the caller's, and may have changed.


def found(top, is_made):
    """`proved`, the path of a trial build of the sources, or nothing where none is kept and none is to be made."""
    toolchain, path = line_of_rt(), None
    while True:
        made = kept.Made(toolchain, kept.sum_of_sources(top))
        if is_proved(top, made):
            return "proved"
        path = trial.take(made)
        if path or not is_made:
            return path or ""
        warn_of_other_kit(top, toolchain)
        say(
            "the program is not proved yet: making a trial build, in about a minute; `boardnet prove` proves it, in up to "
            "an hour"
        )
        path = trial.build(top, made, say)
        if path:
            return path


def keep(top, sources):
    """Keeps a program that the gate proved and built, where the sources are those with which it began."""
    made = kept.Made(line_of_rt(), kept.sum_of_sources(top))
    if made.sources != sources:
        raise Stop(FAILED, "the sources changed during the gate: its program is not noted as proved")
    kept.note(top, made)
    kept.keep(top, made)


def interruptible(work, words):
    """Does some work; an interrupt ends it with these words, once nothing is left behind."""
    for number in children.heard():
        signal.signal(number, children.interrupt)
    try:
        return work()
    except KeyboardInterrupt:
        raise Stop(INTERRUPTED, f"interrupted; {words}") from None


def call(top, command, words):
    """Builds, and then runs the command where there is one, which begins again with the launcher."""

    def work():
        build(top)
        if command:
            # Where the program's time could not be set, the launcher would call again for ever.
            os.execve(command, [command, *words], dict(os.environ, BOARDNET_BUILT=top))

    interruptible(work, "what was proved is kept, and the next call goes on there")


def tell(top, is_made, command=None, words=()):
    """Prints what there is without a proof, or runs the command, which begins again with the launcher."""

    def work():
        path = found(top, is_made)
        if command:
            os.execv(command, [command, *words])
        print(path)

    try:
        interruptible(work, "there is no trial build yet, and the next call makes it")
    except trial.NoTrial as why:
        raise Stop(FAILED, f"there is no trial build of these sources ({why}); `boardnet prove` proves them") from None


def main(words):
    flag = words[0] if words[:1] and words[0] in ("--only", "--find", "--trial", "--keep") else None
    if len(words) < 2 or flag in ("--only", "--find", "--keep") and len(words) != (3 if flag == "--keep" else 2):
        sys.exit(__doc__)
    try:
        if flag == "--keep":
            keep(*words[1:])
        elif flag in ("--find", "--trial"):
            tell(words[1], flag == "--trial", *words[2:3], words[3:])
        elif flag:
            call(words[1], None, [])
            say("the program is proved and built: every command answers by it")
        else:
            call(words[0], words[1], words[2:])
        return 0
    except Stop as stop:
        say(stop)
        return stop.status
    except OSError as error:
        say(f"{error.filename or words[1]}: {error.strerror}")
        return FAILED
    except Exception as fault:
        say(f"a fault of the launcher, which is no answer on the board ({type(fault).__name__} {fault})")
        return FAILED


if __name__ == "__main__":
    sys.exit(main(sys.argv[1:]))
