"""The copper and drill files of folders, zip archives and paths: each content once."""
import hashlib
import os
import re
import zipfile
from typing import Iterator, List, NamedTuple, Tuple

MOST_BYTES = 64 << 20
DRILL = re.compile(rb"\A(?:\xef\xbb\xbf)?(?:;[^\n]*\n|%?\r?\n|[ \t])*M48")
FORMAT, UNIT = re.compile(rb"%\s*FS"), re.compile(rb"%\s*MO(?:MM|IN)\*")


class File(NamedTuple):
    name: str
    kind: str
    data: bytes


def kind_of(data: bytes) -> str:
    """`copper` of any Gerber file, `drill`, or nothing."""
    if DRILL.match(data[:20_000]):
        return "drill"
    return "copper" if (FORMAT.search(data[:60_000]) or UNIT.search(data[:4_000])) and b"*" in data else ""


def of_archive(path: str) -> Iterator[Tuple[str, bytes]]:
    with zipfile.ZipFile(path) as archive:
        for it in archive.infolist():
            if not it.is_dir() and it.file_size <= MOST_BYTES:
                yield f"{path}!{it.filename}", archive.read(it)


def of_path(path: str) -> Iterator[Tuple[str, bytes]]:
    """The files of a folder, with those of its archives, of an archive, or the file itself."""
    if os.path.isdir(path):
        for folder, folders, names in os.walk(path):
            folders.sort()
            for name in sorted(names):
                yield from of_path(os.path.join(folder, name))
    elif path.lower().endswith(".zip"):
        yield from of_archive(path)
    elif os.path.getsize(path) <= MOST_BYTES:
        with open(path, "rb") as file:
            yield path, file.read()


def files_of(paths: List[str]) -> Iterator[File]:
    seen = set()
    for path in paths:
        for name, data in of_path(path):
            kind, told = kind_of(data), hashlib.sha256(data).digest()
            if kind and told not in seen:
                seen.add(told)
                yield File(name, kind, data)
