"""Several boards in one call: which they are, and how they are judged side by side."""
import os
import signal
import sys
from typing import List, Optional, Sequence

from boardnet_show.base.progress import Progress
from boardnet_show.base.scratch import Scratch
from boardnet_show.judging.program import Program
from boardnet_show.output.shown import Shown

from .one_board import show

ENOUGH = 65_536  # bytes of a file, which say what it is
MOST_JOBS = 64


def kind_of(path: str) -> str:
    """What a plain file is, by its beginning; nothing where it cannot be read."""
    from boardnet_show.intake import file_kinds  # most calls are of one board with a manifest

    try:
        if not os.path.isfile(path):
            return ""
        with open(path, "rb") as file:
            return file_kinds.look(file.read(ENOUGH)).kind
    except OSError:
        return ""


def has_board(folder: str) -> bool:
    """Whether files of a board lie in a folder, or in one of its folders: a manifest, or copper."""
    names = [os.path.join(folder, name) for name in sorted(os.listdir(folder))]
    return has_files_of_board(names) or any(
        has_files_of_board([os.path.join(name, each) for each in sorted(os.listdir(name))])
        for name in names
        if os.path.isdir(name) and os.access(name, os.R_OK | os.X_OK)
    )


def has_files_of_board(names: Sequence[str]) -> bool:
    return any(os.path.basename(name) == "m.json" for name in names) or any(kind_of(name) == "gerber" for name in names)


def is_sorted(names: Sequence[str], copper: str) -> bool:
    """Whether folders are those of one board, its copper in one and its drills or netlist in another."""
    others = (
        os.path.join(name, each)
        for name in names
        if name != copper and os.path.isdir(name)
        for each in sorted(os.listdir(name))
    )
    return not os.path.exists(os.path.join(copper, "m.json")) and any(
        kind_of(it) in ("drill", "netlist") for it in others
    )


def boards_in(path: str) -> List[str]:
    """The boards of a folder that is none itself: archives, and folders of packages; nothing of any other path."""
    try:
        if not os.path.isdir(path) or os.path.exists(os.path.join(path, "m.json")):
            return []
        names = [os.path.join(path, name) for name in sorted(os.listdir(path))]
        archives = [name for name in names if name.lower().endswith(".zip") and os.path.isfile(name)]
        found = archives + [name for name in names if os.path.isdir(name) and has_board(name)]
        if len(found) == 1 and not archives and is_sorted(names, found[0]):
            return []
        is_board = (
            any(kind_of(name) in ("gerber", "drill", "netlist") for name in names if name not in archives)
            if found
            else False
        )
    except OSError:
        return []
    return [] if is_board else sorted(found)


def paths_of(paths: Sequence[str]) -> List[str]:
    """Each PATH, and in place of a folder of boards these."""
    return [each for path in paths for each in boards_in(path) or [path]]


def jobs_of(text: Optional[str]) -> int:
    """How many boards are judged at once; 0 where that is no number."""
    if text is None:
        return 1
    return int(text) if text.isascii() and text.isdigit() and 1 <= int(text) <= MOST_JOBS else 0


class Job:
    """A board judged in a process of its own, which tells no progress."""

    def __init__(self, asked, program: Program) -> None:
        self.asked, self.path = asked, program.path

    def __call__(self, path: str) -> Shown:
        with Scratch() as scratch:
            return show(path, self.asked, Program(self.path, Progress(quiet=True)), scratch)


def end_quietly() -> None:
    """Has a process of its own end by a signal as by any exit, which tidies up."""
    for number in (signal.SIGINT, signal.SIGTERM, signal.SIGHUP):
        signal.signal(number, lambda ended, _: sys.exit(128 + ended))


def judged_at_once(asked, program: Program) -> List[Shown]:
    """All boards in their order, some at once."""
    import multiprocessing  # most calls have one board

    pool = multiprocessing.get_context("fork").Pool(min(asked.jobs, len(asked.paths)), end_quietly)
    try:
        judged = list(pool.imap(Job(asked, program), asked.paths))
    except BaseException:
        pool.terminate()
        raise
    else:
        pool.close()  # a signal to a process that has only begun can be lost, and is then waited for without end
        return judged
    finally:
        pool.join()
