"""Zip archives: their files, written flat to a folder beside the archive."""
import errno
import os
from typing import Dict, List

from .file_names import MOST_BYTES, Refused, shown

MOST_FILES, MOST_IN_ALL = 1000, 1 << 30


def files_of(archive):
    """The archive's files, by the last part of their names."""
    found = {}
    for entry in archive.infolist():
        name = entry.filename.replace("\\", "/").rsplit("/", 1)[-1]
        if not name or entry.is_dir() or entry.filename.startswith("__MACOSX/"):
            continue
        if name in found or name in (".", ".."):
            raise Refused(
                f"the archive has two files of the name {shown(name)}, or one of no lawful name: unpack it by hand"
            )
        found[name] = entry
    if len(found) > MOST_FILES or sum(entry.file_size for entry in found.values()) > MOST_IN_ALL:
        raise Refused(
            "the archive has over 1000 files, or over a gigabyte of them: unpack by hand what belongs to the board"
        )
    return found


def inner_files(path: str) -> List[str]:
    """The names of the files in a folder's folders, at any depth, from there."""
    found: List[str] = []
    for home, folders, names in os.walk(path):
        folders[:] = sorted(name for name in folders if not name.startswith((".", "__MACOSX")))
        inside = os.path.relpath(home, path).replace(os.sep, "/")
        found += [f"{inside}/{name}" for name in sorted(names) if home != path and not name.startswith(".")]
        if len(found) > MOST_FILES:
            raise Refused(f"the folders in it have over {MOST_FILES} files: give the folder of one board")
    return found


def link_files(path: str, folder: str) -> Dict[str, str]:
    """Has the files of a folder's folders in a new one by links, as those of an archive; answers the folder of each."""
    found: Dict[str, str] = {}
    for home, folders, names in os.walk(path):
        folders[:] = sorted(name for name in folders if not name.startswith((".", "__MACOSX")))
        for name in sorted(name for name in names if not name.startswith(".")):
            if name in found:
                raise Refused(
                    f"the folders in it have two files of the name {shown(name)}: give the folder of one board"
                )
            found[name] = os.path.abspath(os.path.join(home, name))
        if len(found) > MOST_FILES:
            raise Refused(f"the folders in it have over {MOST_FILES} files: give the folder of one board")
    os.makedirs(folder)
    for name, source in found.items():
        os.symlink(source, os.path.join(folder, name))
    return {name: os.path.dirname(source) for name, source in found.items()}


def is_damage(error):
    """Whether an archive is at fault, and not the system: each way of packing raises errors of its own, bzip2 a
    system's one without a number, and a place before the file's beginning is a wrong argument."""
    return (
        error.errno in (None, errno.EINVAL)
        if isinstance(error, OSError)
        else not isinstance(error, (Refused, MemoryError))
    )


def extract(path, folder):
    """Writes the archive's files to a new folder, and answers the folder of each in it; where that fails, there is
    none."""
    import zipfile  # most boards come in no archive, and loading takes long

    try:
        with zipfile.ZipFile(path) as archive:
            found = files_of(archive)
            os.makedirs(folder)
            try:
                write(archive, found, folder)
            except BaseException:
                import shutil

                shutil.rmtree(folder, ignore_errors=True)
                raise
            return {name: os.path.dirname(entry.filename.replace("\\", "/")) for name, entry in found.items()}
    except Exception as error:
        if not is_damage(error):
            raise
        raise Refused(f"{shown(path)} is no zip archive that can be opened ({shown(str(error))})") from None


def write(archive, found, folder):
    for name, entry in found.items():
        with archive.open(entry) as source, open(os.path.join(folder, name), "xb") as file:
            # One byte over the limit is enough to see that a file is too long.
            file.write(source.read(MOST_BYTES + 1))


def unpack(path):
    """Writes the archive's files to the folder of the archive's name without its ending; that folder, and those of the
    files."""
    folder = os.path.splitext(path)[0]
    if folder == path or os.path.exists(folder):
        raise Refused(f"{shown(folder)} is there already: move it away, or give the folder itself")
    return folder, extract(path, folder)
