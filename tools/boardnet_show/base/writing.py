"""Files that are written whole or not at all, the standard output, and where notes go."""
import errno
import os
import sys
from typing import Union

from . import scratch
from .statuses import UNWRITABLE, Stop


def write(path: str, text: Union[str, bytes]) -> None:
    """Writes a file by a new one that takes its place; `-` is the standard output. Names that are no UTF-8 stay the
    bytes that they are."""
    data = text.encode("utf-8", "surrogateescape") if isinstance(text, str) else text
    try:
        if path == "-":
            if sys.stdout is None:  # it was closed before the start
                raise OSError(errno.EBADF, os.strerror(errno.EBADF))
            sys.stdout.buffer.write(data)
            sys.stdout.buffer.flush()
        elif os.path.exists(path) and not os.path.isfile(path):
            with open(path, "wb") as file:
                file.write(data)
        else:
            replace(path, data)
    except BrokenPipeError:
        raise
    except OSError as error:
        raise Stop(UNWRITABLE, f"{path}: {error.strerror}: cannot be written") from None


def notes() -> None:
    """Where the standard error was closed before the start, notes go nowhere: Python would print them on the
    standard output."""
    if sys.stderr is None:
        sys.stderr = open(os.devnull, "w", encoding="ascii", errors="replace")


def replace(path: str, data: bytes) -> None:
    path = os.path.realpath(path)
    new = os.path.join(os.path.dirname(path), f".{scratch.name()}")
    file = open(new, "xb")
    try:
        with file:
            file.write(data)
        os.replace(new, path)
    except BaseException:
        os.remove(new)
        raise
