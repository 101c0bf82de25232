"""A board's files in a scratch folder, from a folder, a zip archive or a manifest. Nothing is written beside the user's
files."""
import errno
import os
import stat
from itertools import chain, count
from typing import Any, Callable, Iterable, List, NamedTuple, Optional, Sequence, Tuple

from boardnet_show.base.statuses import FULL, NOT_UNDERSTOOD, REFUSED, UNCLEAR, UNREADABLE, UNWRITABLE, Stop
from boardnet_show.formats import manifest

from .file_names import MOST_BYTES, Refused

# Declared net ties, and all else that is declared, beside the manifest.
TIES, DECLARATIONS = "ties.txt", "boardnet.json"
# In a kept folder, what the program was asked on by that command.
BETWEEN = "between"


class Taken(NamedTuple):
    """A file, and what it is taken as by other evidence than attributes."""

    file: str
    what: str


class Drilled(NamedTuple):
    """A drill file of plated holes, and the layers that they span."""

    file: str
    first: int
    last: int


class Sorted(NamedTuple):
    """What is declared of which file is what, where there is no manifest."""

    taken: Tuple[Taken, ...] = ()
    drilled: Tuple[Drilled, ...] = ()
    netlist: str = ""
    has_no_drills: bool = False


def nothing_declared(_: str) -> Sorted:
    return Sorted()


class Package:
    """The files under their own names in `folder`; `manifest` is None where `name` is no manifest."""

    def __init__(self, told, folder, name="m.json"):
        self.manifest, self.folder, self.name = told, folder, name
        # Copper files that `flatten` rewrote, and what it said of those that it refused.
        self.flattened, self.outside = set(), {}
        # Those files as they were before, and where each file of the scratch folder came from.
        self.before, self.came = {}, {}
        # Of copies whose lines do not stand as they came, the line of each that came, none where that is not known.
        self.lines = {}
        # The package that this one is a changed copy of.
        self.base = None
        # What was left out and what was guessed, in words, where the manifest was made here, and what was taken as
        # what.
        self.left_out, self.guessed, self.taken = [], [], []
        # What was rewritten before `check`, as mends/mend.py says.
        self.mends = []
        # What the two packages say between which it lies, once they are made, and why there are none that hold.
        self.between = self.sides = None
        self.no_bounds = ""
        # Where the board is, once a negative file asked for it.
        self.outline = None
        # The bounds of copper files that were made, by their bytes; copies have them too.
        self.made = {}
        # How the files are called where the user has them, and whether the manifest was made here.
        self.home, self.is_made = "", False
        # The folder where they lie with all that is beside them, of a zip archive that of what was in it.
        self.around = folder
        # The netlist of the copper's own names, where they are judged by one, and the one that it stands for, or
        # nothing; the ties that pads of several nets declare.
        self.own, self.theirs, self.ties = "", "", []
        # Whole names by those that the netlist has in their place.
        self.whole = {}

    def path(self, name: str) -> str:
        return os.path.join(self.folder, name)

    def read(self, name: str) -> bytes:
        with open(self.path(name), "rb") as file:
            return file.read()

    def put(self, name: str, data: bytes) -> None:
        """Replaces a file in the scratch folder; what a link leads to stays as it is."""
        if os.path.isabs(name):
            raise Stop(UNREADABLE, f"{name}: only files beside the manifest can be changed in a copy")
        path = self.path(name)
        os.makedirs(os.path.dirname(path), exist_ok=True)
        if os.path.lexists(path):
            os.remove(path)
        with open(path, "wb") as file:
            file.write(data)

    def link(self, name: str, source: str) -> None:
        """Has a file under its name by a link, or not at all where there is none: then `check` says so."""
        path = self.path(name)
        if os.path.isabs(name) or os.path.lexists(path) or not os.path.exists(source):
            return
        os.makedirs(os.path.dirname(path), exist_ok=True)
        os.symlink(os.path.abspath(source), path)
        self.came[name] = os.path.abspath(source)

    def bytes_that_came(self, name: str) -> bytes:
        """A file as the user has it, nothing where it is not known."""
        path = (self.base or self).came.get(name)
        if not path:
            return b""
        with open(path, "rb") as file:
            return file.read()

    def is_taken(self, name: str) -> bool:
        """Whether a name is that of a file of the board, be it there or not."""
        its = self.manifest.names() if self.manifest else []
        return name in {os.path.normpath(each) for each in [self.name, TIES, DECLARATIONS, *its]}

    def free_name(self, stem: str, ending: str) -> str:
        """A name of a file that the package does not have."""
        number, name = 0, stem + ending
        while self.is_taken(name) or os.path.lexists(self.path(name)):
            number += 1
            name = f"{stem}{number}{ending}"
        return name

    def report_name(self) -> str:
        """The name of the report in the folder, the same each time: no file of the board has it."""
        names = chain(["report.txt"], (f"report{number}.txt" for number in count(1)))
        return next(name for name in names if not self.is_taken(name))

    def changed(self, folder, files=None, told=None):
        """Another package of the same files but for those that are given, in a folder of its own."""
        copy = Package(told or self.manifest, folder, self.name)
        copy.flattened, copy.home, copy.around = set(self.flattened) - set(files or ()), self.home, self.around
        copy.before = {name: data for name, data in self.before.items() if name in copy.flattened}
        copy.own, copy.mends, copy.made, copy.whole = self.own, self.mends, self.made, self.whole
        copy.lines, copy.base = self.lines, self.base or self
        os.makedirs(folder)
        for name, data in (files or {}).items():
            copy.put(name, data)
        for name in copy.manifest.names():
            copy.link(name, self.path(name))
        copy.put(self.name, copy.manifest.json_text().encode())
        return copy

    def rewritten(self) -> List[str]:
        """The user's files in whose place a copy is judged."""
        return [name for name in self.manifest.names() if name in self.came and not os.path.islink(self.path(name))]

    def as_it_came(self, folder: str, names: Sequence[str]) -> "Package":
        """Another package of the same files, of which these are those that the user has."""
        real = Package(self.manifest, folder, self.name)
        os.makedirs(folder)
        for name in names:
            real.link(name, self.came[name])
        for name in self.manifest.names():
            real.link(name, self.path(name))
        real.put(self.name, self.manifest.json_text().encode())
        return real

    def told_path(self, name: str) -> str:
        """A file as the caller would open it."""
        return os.path.join(self.home, name)


class Unconfirmed(Stop):
    """A folder whose files do not say all of what they are; `package` is what would be taken."""

    def __init__(self, words, rows, package):
        super().__init__(UNCLEAR, words, rows)
        self.package = package


def inner(scratch: str, names: Sequence[str]) -> str:
    """A folder so deep in the scratch folder that names with `..` stay in it."""
    deep = max([name.split("/").count("..") for name in names], default=0)
    return os.path.join(scratch, *["in"] * deep, "board")


def room(scratch: str, names: Sequence[str]) -> str:
    """Such a folder, made."""
    folder = inner(scratch, names)
    os.makedirs(folder)
    return folder


def beside(package: Package, word: str) -> str:
    """A folder for a changed copy of a package, in a folder of its own beside that of the package; it is not there
    yet."""
    number = 0
    while os.path.exists(f"{package.folder}.{word}{number}"):
        number += 1
    return inner(f"{package.folder}.{word}{number}", package.manifest.names())


def need_plain(home: str, names: Iterable[str], inside: Optional[str] = None) -> None:
    """Refuses names that lead elsewhere than to plain files of at most as many bytes as `check` takes; with a folder,
    than into it. Nothing is read before; what is not there is left to `check`."""
    for name in names:
        path = os.path.join(home, name)
        if inside and not os.path.realpath(path).startswith(os.path.realpath(inside) + os.sep):
            raise Stop(UNREADABLE, f"{name}: cannot be read: it is not in the archive")
        try:
            its = os.stat(path)
        except (OSError, ValueError):
            continue
        if not stat.S_ISREG(its.st_mode):
            why = os.strerror(errno.EISDIR) if stat.S_ISDIR(its.st_mode) else "it is no plain file"
            raise Stop(UNREADABLE, f"{name}: cannot be read: {why}")
        if its.st_size > MOST_BYTES:
            raise Stop(REFUSED, f"{name}: longer than {MOST_BYTES} bytes")


def of_manifest(path, scratch, inside=None):
    """The package of a manifest that is there; with a folder its files are to lie there."""
    home, name = os.path.dirname(path), os.path.basename(path)
    need_plain(home, [name, TIES, DECLARATIONS], inside)
    with open(path, "rb") as file:
        data = file.read(MOST_BYTES + 1)
    told = manifest.of_text(data)
    need_plain(home, told.names() if told else [], inside)
    package = Package(told, room(scratch, told.names() if told else []), name)
    package.home, package.around = home, home or "."
    package.put(name, data)
    package.came[name] = os.path.abspath(path)
    for each in [*(told.names() if told else []), TIES]:
        package.link(each, os.path.join(home, each))
    return package


def of_folder(home, asked, scratch, declared, homes):
    """The package of a folder without a manifest, by what the files say of themselves and what is declared of them;
    `homes` are the folders in which they came."""
    from . import gathering as gathered  # most boards have a manifest

    need_plain(home, [TIES, DECLARATIONS])
    found, said = gathered.gather(home, homes), declared(home)
    try:
        plan = gathered.Plan(
            found, asked.netlist or said.netlist or None, asked.no_drills or said.has_no_drills, True, said.drilled
        )
    except Refused as why:
        raise Stop(UNCLEAR, str(why), [f"left out: {name}: {reason}" for name, reason in found.left_out]) from None
    unsaid = [row for row in plan.guessed if Taken(*row[:2]) not in said.taken]
    told = manifest.Manifest(plan.manifest)
    package = Package(told, room(scratch, told.names()))
    package.home, package.around, package.is_made = home, home, True
    package.guessed = [f"{name} as {what}: {why}" for name, what, why in unsaid]
    package.taken = [Taken(name, what) for name, what, _ in plan.guessed]
    package.left_out = [f"{name}: {why}" for name, why in found.left_out]
    package.put("m.json", told.json_text().encode())
    for name in filter(None, [*told.names(), TIES]):
        package.link(name, os.path.join(home, name))
    if unsaid and not asked.yes:
        raise Unconfirmed(
            "the files do not say all of what they are: if this is right, say --yes; else write m.json by hand",
            [f"would be taken: {word}" for word in package.guessed],
            package,
        )
    return package


def holds_folders_alone(path: str) -> bool:
    """Whether a folder has folders in it and no file of its own, as some tools sort what they write."""
    with os.scandir(path) as entries:
        its = [entry.is_dir(follow_symlinks=False) for entry in entries if not entry.name.startswith((".", "__MACOSX"))]
    return bool(its) and all(its)


def is_archive(path: str) -> bool:
    if not os.path.isfile(path):
        return False
    import zipfile  # most boards come in no archive, and loading takes long

    # One that was cut off is none by its content; it is refused as what its name says.
    return path.lower().endswith(".zip") or zipfile.is_zipfile(path)


def unpacked(path: str, scratch: str) -> Tuple[str, Any]:
    """The folder of a zip archive's files, in the scratch folder, and the folders in it."""
    from . import archives

    folder = os.path.join(scratch, "unpacked")
    return folder, archives.extract(path, folder)


def beside_archive(path: str, name: str) -> Optional[str]:
    """A file that stands beside an archive: of its name, or where it is the only archive there."""
    home = os.path.dirname(path) or "."
    own, common = f"{os.path.splitext(path)[0]}.{name}", os.path.join(home, name)
    if os.path.exists(own):
        return own
    is_alone = sum(it.lower().endswith(".zip") for it in os.listdir(home)) == 1 and path.lower().endswith(".zip")
    return common if is_alone and os.path.exists(common) else None


def of_archive(path, asked, scratch, declared):
    """The package of what is in a zip archive, with the ties that stand beside it."""
    folder, homes = unpacked(path, scratch)
    package = opened(folder, asked, scratch, folder, declared, homes)
    package.home = path
    ties = beside_archive(path, TIES)
    if ties and os.path.lexists(package.path(TIES)):
        raise Refused(f"there is a {TIES} in the archive and one beside it: keep one of them")
    if ties:
        need_plain(os.path.dirname(ties) or ".", [os.path.basename(ties)])
        package.link(TIES, ties)
    return package


def of_sorted_files(path, asked, scratch, declared):
    """The package of a folder whose files its tool has sorted into folders, as that of an archive."""
    from . import archives  # few boards are sorted so

    folder = os.path.join(scratch, "unpacked")
    homes = archives.link_files(path, folder)
    package = opened(folder, asked, scratch, None, declared, homes)
    package.home = path
    return package


def opened(path, asked, scratch, inside=None, declared: Callable[[str], Sorted] = nothing_declared, homes=None):
    """The package of a folder, a zip archive or a manifest; with a folder the files are to lie there. `declared` says
    what is declared of the files of a folder, and `homes` in which folders they came, where they were laid together."""
    if not path:
        raise Stop(NOT_UNDERSTOOD, "PATH is empty: it is a folder, a zip archive or a manifest")
    try:
        if is_archive(path):
            return of_archive(path, asked, scratch, declared)
        if not os.path.isdir(path):
            return of_manifest(path, scratch)
        if os.path.exists(os.path.join(path, "m.json")):
            return of_manifest(os.path.join(path, "m.json"), scratch, inside)
        if not inside and holds_folders_alone(path):
            return of_sorted_files(path, asked, scratch, declared)
        return of_folder(path, asked, scratch, declared, homes)
    except Refused as why:
        raise Stop(UNCLEAR, str(why)) from None
    except OSError as error:
        if error.errno in FULL:
            raise
        inside = os.path.relpath(error.filename or path, path)
        raise Stop(UNREADABLE, ("" if inside == "." else f"{inside}: ") + f"cannot be read: {error.strerror}") from None


def need_netlist(package, asked):
    """Refuses a netlist that is asked for where the manifest names another: the answer would be by that."""
    its = package.manifest.netlist if package.manifest else None
    if asked.netlist and its and its != asked.netlist:
        raise Stop(NOT_UNDERSTOOD, f"--netlist {asked.netlist}: {package.name} names {its}, so have it name the other")


def keep(package, report, folder, asked=""):
    """Copies the package as it was judged, and its report, to a folder that must not be there yet; with what `between`
    was asked on, where it was."""
    if os.path.exists(folder):
        raise Stop(UNWRITABLE, f"{folder} is there already: --keep wants a new folder")
    import shutil  # loading takes long, as above

    try:
        shutil.copytree(package.folder, folder)
        with open(os.path.join(folder, package.report_name()), "wb") as file:
            file.write(report)
        if asked:
            shutil.copytree(asked, os.path.join(folder, package.free_name(BETWEEN, "")))
    except OSError as error:
        shutil.rmtree(folder, ignore_errors=True)
        raise Stop(UNWRITABLE, f"{folder}: {error.strerror}: cannot be written") from None
    except BaseException:
        shutil.rmtree(folder, ignore_errors=True)
        raise
