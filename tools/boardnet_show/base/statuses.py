"""How a run ends: statuses of the program and those beside, and what stops a board."""
import errno
from typing import Sequence

# Statuses of the program, and those beside: no package can be made of the files; the answer lies between two bounds;
# nothing was
# judged; a fault of `show` itself.
NOT_UNDERSTOOD, REFUSED, UNREADABLE, UNWRITABLE, NO_MEMORY = 2, 3, 4, 5, 6
UNCLEAR, UNDECIDED, UNJUDGED, FAULT, NO_PYTHON = 10, 11, 12, 70, 127
# What the system says where a file has no room.
FULL = (errno.ENOSPC, errno.EDQUOT)


class Stop(Exception):
    """Why a board is not shown, and the status that says so; `rows` are what is listed below it."""

    def __init__(self, status: int, words: str, rows: Sequence[str] = ()) -> None:
        super().__init__("\n  ".join([words, *rows]))
        self.status, self.words, self.rows = status, words, tuple(rows)


class BadCopper(Exception):
    """Shapes that do not belong to a report."""


def fault_of(path: str, fault: Exception) -> Stop:
    """What ends a PATH where something happens that nothing here foresees."""
    if isinstance(fault, Stop):
        return fault
    if isinstance(fault, MemoryError):
        return Stop(NO_MEMORY, f"{path}: out of memory")
    if isinstance(fault, ImportError):
        return Stop(NO_PYTHON, f"{path}: `show` wants Python's whole library ({fault})")
    if isinstance(fault, OSError) and fault.errno in FULL:
        return Stop(UNWRITABLE, f"{path}: {fault.strerror}")
    step = fault.__traceback__
    while step and step.tb_next:
        step = step.tb_next
    where = f"{step.tb_frame.f_code.co_filename.rsplit('/', 1)[-1]} line {step.tb_lineno}" if step else "no line"
    words = " ".join(f"{type(fault).__name__} {fault}".split())[:120]
    return Stop(
        FAULT,
        f"{path}: a fault of `show` itself, which is no answer on the board ({words}, in {where}): "
        "please report it with this file",
    )
