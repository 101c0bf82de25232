"""The proof of the crates: each over the libraries of those below, several at a time, and each on the processors that are free.

The sources are a copy, so that they may change meanwhile. A crate that is proved is kept at once.
"""
import contextlib
import fcntl
import hashlib
import os
import shutil
import signal

import kept
import order
import proved
import times
from children import Child, end_inside
from compiler import Compiler

PROGRAM = "boardnet"


class Failed(Exception):
    """A crate that is not proved, or was not built."""


class Room:
    """A scratch place, one for each checkout; another call for the same checkout waits until it is free."""

    def __init__(self, top, says):
        name = (
            "boardnet-proof-"
            + hashlib.sha256(os.path.realpath(top).encode("utf-8", "surrogateescape")).hexdigest()[:16]
        )
        self.at, self.has_waited = os.path.join(proved.base(), name), False
        self.handle = os.open(os.path.join(top, "crates"), os.O_RDONLY)
        try:
            fcntl.flock(self.handle, fcntl.LOCK_EX | fcntl.LOCK_NB)
        except OSError:
            self.has_waited = True
            says("another call proves the crates of this checkout: waiting for it")
            fcntl.flock(self.handle, fcntl.LOCK_EX)
        # A call that was killed left it.
        end_inside(proved.own_folder(self.at))
        shutil.rmtree(self.at)
        proved.own_folder(self.at)

    def remove(self):
        end_inside(self.at)
        shutil.rmtree(self.at, ignore_errors=True)
        os.close(self.handle)


class Work:
    """The commands of a crate, one after the other, in its folder; what they make and say is in a room of their own."""

    def __init__(self, commands, jobs, folder, room):
        self.jobs, self.folder, self.room, self.said, self.seconds = jobs, folder, room, b"", 0.0
        shutil.rmtree(room, ignore_errors=True)
        for it in ("made", "scratch"):
            os.makedirs(os.path.join(room, it))
        self.left = commands(os.path.join(room, "made"), os.path.join(room, "scratch"), jobs)
        self.next()

    def next(self):
        scratch = dict(os.environ, TMPDIR=os.path.join(self.room, "scratch"))
        self.child = Child(self.left.pop(0), self.folder, os.path.join(self.room, "said"), scratch)

    def status(self):
        """How they ended, or None while one runs."""
        status = self.child.status()
        if status is None:
            return None
        self.seconds += self.child.seconds
        with open(os.path.join(self.room, "said"), "rb") as file:
            self.said += file.read()
        if status or not self.left:
            return status
        self.next()
        return None


class Proof:
    """`step` notes what ended and begins what can begin; `left` has the crates that are not proved yet."""

    def __init__(self, top, log, says):
        self.top, self.log = top, log
        self.proved, self.room = proved.Proved(), Room(top, says)
        self.sources = os.path.join(self.room.at, "sources")
        self.left, self.running = [], {}

    def read(self, toolchain):
        """Copies the sources, and reads what stands on what and what is proved of it."""
        kept.copy_sources(self.top, self.sources)
        with open(os.path.join(self.sources, "crates.txt"), encoding="utf-8") as file:
            named = order.named(file.read())
        self.below = order.wanted(order.below(order.uses(named)), PROGRAM)
        self.sums = proved.sums(self.sources, named, self.below, toolchain)
        self.compiler = Compiler(named, self.below, lambda name: self.proved.folder(self.sums[name]))
        work = times.work({name: self.size(name) for name in self.below}, times.read())
        self.chain = order.chains(self.below, work)
        left = [name for name in self.below if not self.proved.has(self.sums[name])]
        self.left = left if PROGRAM in left else []

    def crate(self, name):
        return os.path.join(self.sources, "crates", name)

    def size(self, name):
        """The bytes of a crate's sources: the work of a proof grows about with them, where it is not noted."""
        return sum(os.path.getsize(os.path.join(at, it)) for at, _, files in os.walk(self.crate(name)) for it in files)

    def begin(self, name, jobs):
        def commands(*given):
            return (self.compiler.of_program if name == PROGRAM else self.compiler.of_library)(name, *given)

        self.running[name] = Work(commands, jobs, self.crate(name), os.path.join(self.room.at, name))

    def step(self, places):
        """Notes which crates are proved since, and begins what can begin with so many jobs in all."""
        for name, work in list(self.running.items()):
            status = work.status()
            if status is not None:
                self.ended(name, work, status)
        ready = [name for name in self.left if name not in self.running and not self.below[name] & set(self.left)]
        running = {name: work.jobs for name, work in self.running.items()}
        for name, jobs in order.chosen(ready, self.chain, running, places).items():
            self.begin(name, jobs)

    def ended(self, name, work, status):
        """Keeps what was proved; the toolchain makes nothing of what is not. A check that memory did not last for is begun again, as a lone job."""
        del self.running[name]
        with open(self.log, "ab") as log:
            log.write(times.head(name, work.seconds).encode() + work.said)
        if status == -signal.SIGKILL and work.jobs > 1:
            self.begin(name, 1)
            return
        if status:
            raise Failed
        self.proved.put(os.path.join(work.room, "made"), self.sums[name])
        self.left.remove(name)

    def program(self):
        return os.path.join(self.proved.folder(self.sums[PROGRAM]), PROGRAM)

    def end(self):
        """Ends the checks that run, and leaves nothing behind but what was proved."""
        for work in self.running.values():
            work.child.end()
        self.room.remove()
        with contextlib.suppress(OSError):
            self.proved.shrink()
