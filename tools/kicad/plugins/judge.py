"""Runs `boardnet show` over a folder, and says how it ended. It knows nothing of KiCad."""
import os
import shutil
import subprocess
from typing import List, NamedTuple, Optional

# Where the command may be named, before the PATH is looked at.
VARIABLE = "BOARDNET_COMMAND"
# What a checkout is called above this file, where KiCad's folder of plugins has a link to it.
CHECKOUT = os.path.join(os.path.dirname(os.path.realpath(__file__)), *[os.pardir] * 3, "boardnet")
SECONDS = 600
# So many lines of an answer stand in a message; the page has them all.
MOST_LINES = 12


class Judged(NamedTuple):
    """The status of `show`, what it said, and the page, or None where it wrote none."""

    status: int
    text: str
    page: Optional[str]


class NoCommand(Exception):
    """There is no command to run."""


def command() -> List[str]:
    """The words that begin a call of boardnet."""
    for path in (os.environ.get(VARIABLE), shutil.which("boardnet"), CHECKOUT):
        if path and os.access(path, os.X_OK):
            return [path]
    raise NoCommand(
        f"There is no command `boardnet` on the PATH. Install it, or name it in the environment as {VARIABLE}."
    )


def judge(folder: str) -> Judged:
    """Has the files of a folder judged, and the page written beside them."""
    page = os.path.join(folder, "boardnet.html")
    how = {"stdin": subprocess.DEVNULL, "stdout": subprocess.PIPE, "stderr": subprocess.STDOUT, "timeout": SECONDS}
    done = subprocess.run([*command(), "show", folder, "--page", page], check=False, **how)
    return Judged(done.returncode, done.stdout.decode("utf-8", "replace"), page if os.path.isfile(page) else None)


def message(judged: Judged) -> str:
    """What a window says: the first lines of the answer."""
    lines = judged.text.strip().splitlines() or [f"boardnet ended with status {judged.status} and said nothing."]
    return "\n".join(lines[:MOST_LINES]) + ("\n.." if len(lines) > MOST_LINES else "")
