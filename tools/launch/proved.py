"""What was proved: of each crate its library, or the program, in a folder under the sum of all that it was made of.

They lie among the user's kept files, for every checkout: what is proved of the same sources over the same libraries by the same
toolchain is the same. Those used last are kept.
"""
import collections
import contextlib
import errno
import hashlib
import os
import shutil
import tempfile

import compiled
import kept

# So many crates are kept, of twenty megabytes each.
MOST = 100
# The file that notes the sum of what was made, so that what a crash left is not taken.
NOTE = "sum"


def base():
    """Where the user's kept files are, or where scratch files are where there is no writing there."""
    with contextlib.suppress(OSError):
        os.makedirs(compiled.base(), exist_ok=True)
    return compiled.base() if os.access(compiled.base(), os.W_OK) else tempfile.gettempdir()


def own_folder(path):
    """Makes a folder that is this user's alone: what lies there counts as proved."""
    os.makedirs(path, 0o700, exist_ok=True)
    if os.stat(path).st_uid != os.geteuid():
        raise PermissionError(errno.EPERM, "it belongs to another user", path)
    return path


def sums(sources, named, below, toolchain):
    """The sum of all that each crate is made of: the toolchain, its line, its files, and what it stands on."""
    files, found = collections.defaultdict(list), {}
    for path in kept.sources(sources):
        inside = os.path.relpath(path, sources)
        files[inside.split(os.sep)[1 if os.sep in inside else 0]].append(f"{kept.sum_of_file(path)}  {inside}")
    for name in below:
        lines = [
            toolchain,
            " ".join([name, *named[name]]),
            *sorted(files[name]),
            *sorted(found[it] for it in below[name]),
        ]
        found[name] = hashlib.sha256("\n".join(lines).encode("utf-8", "surrogateescape")).hexdigest()
    return found


def sum_of_folder(folder):
    """The sum of the files in a folder and of their names, but for the file that notes it."""
    paths = sorted(os.path.join(at, it) for at, _, files in os.walk(folder) for it in files)
    lines = [
        f"{kept.sum_of_file(path)}  {os.path.relpath(path, folder)}\n"
        for path in paths
        if path != os.path.join(folder, NOTE)
    ]
    return hashlib.sha256("".join(lines).encode()).hexdigest()


class Proved:
    def __init__(self):
        self.at = own_folder(os.path.join(base(), "boardnet-proved"))

    def folder(self, sum):
        return os.path.join(self.at, sum)

    def has(self, sum):
        """Whether it is there and whole; then it counts as used now, and else nothing is left of it."""
        folder = self.folder(sum)
        if not os.path.isdir(folder):
            # Another call may put it there at any time.
            return False
        try:
            with open(os.path.join(folder, NOTE), encoding="ascii") as file:
                is_whole = file.read() == sum_of_folder(folder)
            if is_whole:
                os.utime(folder)
                return True
        except (OSError, ValueError):
            pass
        shutil.rmtree(folder, ignore_errors=True)
        return False

    def put(self, made, sum):
        """Takes a folder; another call may have made the same meanwhile."""
        with open(os.path.join(made, NOTE), "w", encoding="ascii") as file:
            file.write(sum_of_folder(made))
        try:
            os.rename(made, self.folder(sum))
        except OSError:
            if not self.has(sum):
                # What a crash left there is removed now.
                os.rename(made, self.folder(sum))

    def shrink(self):
        found = sorted((os.path.join(self.at, it) for it in os.listdir(self.at)), key=os.path.getmtime)
        for path in found[:-MOST]:
            shutil.rmtree(path, ignore_errors=True)
