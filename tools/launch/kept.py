"""Programs that were built, by the sum of what they were built of: in the checkout, and among this user's kept files.

    kept.py TOP     prints the sum of a checkout's sources, and whether its program is noted as proved of them
"""
import contextlib
import hashlib
import json
import os
import shutil
import sys
import tempfile
import time
from typing import NamedTuple

import compiled

# So many programs are kept.
MOST = 4


def sources(top):
    """The names of the files that the program is made of."""
    found = [os.path.join(top, "crates.txt")]
    for at, folders, files in os.walk(os.path.join(top, "crates")):
        folders[:] = sorted(name for name in folders if name not in ("out", "must-fail", "data"))
        found += [os.path.join(at, name) for name in sorted(files) if name.endswith((".rt", ".antt"))]
    return found


def sum_of_file(path):
    with open(path, "rb") as file:
        return hashlib.sha256(file.read()).hexdigest()


def sum_of_sources(top):
    """The sum of the sources and their names: that of the lines which sha256sum prints of these files at the top, sorted by name."""
    names = sorted(os.path.relpath(path, top) for path in sources(top))
    lines = [f"{sum_of_file(os.path.join(top, name))}  {name}\n" for name in names]
    return hashlib.sha256("".join(lines).encode("utf-8", "surrogateescape")).hexdigest()


class Made(NamedTuple):
    """What a program is made of: the toolchain's line and the sum of the sources."""

    toolchain: str
    sources: str

    def sum(self):
        return hashlib.sha256(f"{self.toolchain}\n{self.sources}\n".encode()).hexdigest()


def copy_sources(top, to):
    """Copies the sources, and nothing else of the checkout."""
    for path in sources(top):
        apart = os.path.join(to, os.path.relpath(path, top))
        os.makedirs(os.path.dirname(apart), exist_ok=True)
        shutil.copyfile(path, apart)


def program_of(top):
    return os.path.join(top, "crates", "boardnet", "out", "boardnet")


def place():
    return os.path.join(compiled.base(), "boardnet")


def count_as_new(top):
    """Makes the program newer than every source, also one whose time lies ahead: so the launcher knows it without sums, where this user
    can set its time."""
    newest = max(os.stat(path).st_mtime_ns for path in sources(top))
    now = max(time.time_ns(), newest)
    with contextlib.suppress(OSError):
        os.utime(program_of(top), ns=(now, now))


def noted(top):
    """What the checkout's program is made of, as was noted when it was proved; None where nothing is noted of these bytes."""
    program = program_of(top)
    try:
        with open(program + ".made", encoding="utf-8") as file:
            said = json.load(file)
        return Made(said["toolchain"], said["sources"]) if said["program"] == sum_of_file(program) else None
    except (OSError, ValueError, KeyError, TypeError):
        return None


def is_same(top, made):
    """Whether the checkout's program is noted as made of these very sources; then it counts as new."""
    if noted(top) != made:
        return False
    count_as_new(top)
    return True


def write_whole(path, data, mode):
    """Writes a file apart and then renames it, so that nobody meets half of it."""
    handle, apart = tempfile.mkstemp(dir=os.path.dirname(path))
    try:
        with os.fdopen(handle, "wb") as file:
            file.write(data)
        os.chmod(apart, mode)
        os.replace(apart, path)
    except BaseException:
        with contextlib.suppress(FileNotFoundError):
            os.remove(apart)
        raise


def note(top, made):
    """Notes of which sources the checkout's program was proved and built."""
    program = program_of(top)
    said = json.dumps({**made._asdict(), "program": sum_of_file(program)}) + "\n"
    write_whole(program + ".made", said.encode("utf-8"), 0o644)
    count_as_new(top)


def put(top, program, made):
    """Gives the checkout a program and the note of what it is made of."""
    os.makedirs(os.path.dirname(program_of(top)), exist_ok=True)
    with open(program, "rb") as file:
        write_whole(program_of(top), file.read(), 0o755)
    note(top, made)


def keep(top, made):
    """Keeps the checkout's program for other checkouts of the same sources; the oldest of too many go."""
    try:
        os.makedirs(place(), 0o700, exist_ok=True)
        with open(program_of(top), "rb") as file:
            data = file.read()
        name = f"{made.sum()}-{hashlib.sha256(data).hexdigest()}"
        write_whole(os.path.join(place(), name), data, 0o755)
        found = sorted((os.path.join(place(), it) for it in os.listdir(place())), key=os.path.getmtime)
        for path in found[:-MOST]:
            os.remove(path)
    except OSError:
        # No room or no home: the next checkout builds its own.
        pass


def take(top, made):
    """Gives the checkout the program that is kept for these sources, and returns whether there is one."""
    try:
        for name in os.listdir(place()):
            path = os.path.join(place(), name)
            if name == f"{made.sum()}-{sum_of_file(path)}" and os.stat(path).st_uid == os.geteuid():
                put(top, path, made)
                return True
    except OSError:
        pass
    return False


def line(top):
    """What `--version` says of the sources."""
    sources, made = sum_of_sources(top), noted(top)
    is_proved = made is not None and made.sources == sources
    return f"sources {sources}, {'proved with ' + made.toolchain if is_proved else 'not noted as proved'}"


if __name__ == "__main__":
    print(line(sys.argv[1]))
