"""A trial build: the program as the toolchain compiles it with run-time checks and no proof, kept by the sum of its sources.

`rt try` compiles the sources, runs the program once and throws it away. So it is given words that keep the program at work for some
seconds, and its file is copied meanwhile. What is kept so is told apart from what is proved by its folder, and nothing rests on it.
"""
import contextlib
import fcntl
import hashlib
import os
import re
import shutil
import subprocess
import time
from typing import Iterator, Optional

import kept
import proved
from children import Child, end_inside

# The words: they read no file, and the largest board that they make takes the program longest.
WORDS = ("trial", "1", "10000")
# What the toolchain calls the program.
PROGRAM = "program"
NICE = "5"
# So many are kept.
MOST = 2
# Seconds between two looks at what runs.
LOOK = 0.05


class NoTrial(Exception):
    """The toolchain gave no program that could be copied."""


def folder() -> str:
    return proved.own_folder(os.path.join(proved.base(), "boardnet-trials"))


def take(made: kept.Made) -> Optional[str]:
    """The trial build that is kept of these sources, whole; then it counts as used now."""
    for name in os.listdir(folder()):
        path = os.path.join(folder(), name)
        if name.startswith(made.sum()) and name == f"{made.sum()}-{kept.sum_of_file(path)}":
            os.utime(path)
            return path
    return None


def keep(made: kept.Made, data: bytes) -> str:
    """Keeps a trial build; the oldest of too many go."""
    path = os.path.join(folder(), f"{made.sum()}-{hashlib.sha256(data).hexdigest()}")
    kept.write_whole(path, data, 0o755)
    if not starts(path):
        os.remove(path)
        raise NoTrial("it does not run on this system")
    found = sorted((os.path.join(folder(), name) for name in os.listdir(folder())), key=os.path.getmtime)
    for old in found[:-MOST]:
        os.remove(old)
    return path


@contextlib.contextmanager
def alone(says) -> Iterator[None]:
    """One trial build at a time for a user; another call waits for it, and then has it."""
    handle = os.open(folder(), os.O_RDONLY)
    try:
        try:
            fcntl.flock(handle, fcntl.LOCK_EX | fcntl.LOCK_NB)
        except OSError:
            says("another call makes a trial build: waiting for it")
            fcntl.flock(handle, fcntl.LOCK_EX)
        yield
    finally:
        os.close(handle)


def running(scratch: str) -> Optional[bytes]:
    """The bytes of the program that runs from a scratch folder, or nothing. The toolchain runs it by a loader of its own, so it is known by what
    a process has mapped as code; a file that is so is whole."""
    inside = re.escape(os.fsencode(os.path.realpath(scratch) + os.sep))
    code = re.compile(rb"^\S+ r-xp .* (" + inside + rb"(?:.*/)?" + os.fsencode(PROGRAM) + rb")$", re.M)
    for number in filter(str.isdigit, os.listdir("/proc")):
        with contextlib.suppress(OSError):
            with open(f"/proc/{number}/maps", "rb") as maps:
                found = code.search(maps.read())
            if found:
                with open(found[1], "rb") as file:
                    return file.read()
    return None


def starts(path: str) -> bool:
    """Whether the system's own loader runs a copy: without words the program says that it does not understand them."""
    done = subprocess.run([path], stdin=subprocess.DEVNULL, stdout=subprocess.PIPE, stderr=subprocess.PIPE, check=False)
    return done.returncode == 2 and done.stderr.startswith(b"boardnet: ")


def first_error(path: str) -> str:
    with open(path, encoding="utf-8", errors="replace") as file:
        return next((line.strip()[:200] for line in file if re.search(r"\berror\b|^rt: ", line)), "it says nothing")


def compiled(sources: str, scratch: str) -> bytes:
    """The program of a copy of the sources, while it runs."""
    notes = os.path.join(scratch, "notes")
    words = ["nice", "-n", NICE, "rt", "try", "--", *WORDS]
    child = Child(
        words,
        os.path.join(sources, "crates", "boardnet"),
        os.path.join(scratch, "out"),
        dict(os.environ, TMPDIR=scratch),
        notes,
    )
    try:
        while True:
            has_ended = child.status() is not None
            data = running(scratch)
            if data:
                return data
            if has_ended:
                raise NoTrial(first_error(notes))
            time.sleep(LOOK)
    finally:
        child.end()
        end_inside(scratch)


def build(top: str, made: kept.Made, says) -> Optional[str]:
    """Makes and keeps the trial build of a checkout's sources, and answers its path; nothing where they are no more those that were asked
    for."""
    with alone(says):
        path = take(made)
        if path:
            return path
        scratch = os.path.join(proved.base(), "boardnet-trial-work")
        # A call that was killed left it.
        end_inside(proved.own_folder(scratch))
        shutil.rmtree(scratch)
        proved.own_folder(scratch)
        try:
            sources = os.path.join(scratch, "sources")
            kept.copy_sources(top, sources)
            if kept.sum_of_sources(sources) != made.sources:
                return None
            return keep(made, compiled(sources, scratch))
        finally:
            shutil.rmtree(scratch, ignore_errors=True)
