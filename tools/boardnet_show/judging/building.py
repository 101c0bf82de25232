"""A program that is not built yet: what the files say without it is told, and then a trial build is made."""
import os
import subprocess
import sys

from boardnet_show.base.statuses import FAULT, Stop
from boardnet_show.base.wording import printable
from boardnet_show.formats import ipc356
from boardnet_show.formats.gerber_lexer import begins

BUILDER = os.path.join(
    os.path.dirname(os.path.dirname(os.path.dirname(os.path.abspath(__file__)))), "launch", "build.py"
)


def checkout():
    """The checkout whose program is to be built first, where the launcher says so."""
    return os.environ.get("BOARDNET_BUILDS")


def is_trial():
    """Whether the launcher says that a trial build answers, which no proof stands behind."""
    return bool(os.environ.get("BOARDNET_TRIAL"))


def known(package):
    """What the files say before anything is judged."""
    told = package.manifest
    if not told:
        return [f"{package.name} is no manifest"]
    missing = [name for name in told.names() if not os.path.exists(package.path(name))]
    lines = [
        f"{len(told.copper)} copper files ({', '.join(told.copper)}), {len(told.drills)} drill files, netlist"
        f" {told.netlist}"
    ]
    if told.netlist not in missing:
        lines[0] += f" with {len(ipc356.records(package.read(told.netlist)))} test records"
    lines += [f"{name} is not there" for name in missing]
    lines += [
        f"{name} has aperture macros, which are written out first"
        for name in dict.fromkeys(told.copper)
        if name not in missing and begins(package.read(name), b"AM")
    ]
    lines += [f"taken as {word}" for word in package.guessed]
    return lines + [f"left out: {word}" for word in package.left_out]


def build(package):
    """Has a trial build made, or the proved program taken, and names it for all that runs it."""
    for line in known(package):
        print(printable(f"boardnet: {package.home or package.name}: {line}"), file=sys.stderr, flush=True)
    running = subprocess.Popen(
        [sys.executable, BUILDER, "--trial", checkout()], stdin=subprocess.DEVNULL, stdout=subprocess.PIPE
    )
    try:
        out, _ = running.communicate()
    except BaseException:
        running.terminate()
        running.wait()
        raise
    status = running.returncode
    if status:
        # Signals as a shell says them; what else it ends with by a fault of its own is no status of a board.
        raise Stop(128 - status if status < 0 else status if status >= FAULT else FAULT, "the program is not built")
    path = os.fsdecode(out).strip()
    if path != "proved":
        os.environ["BOARDNET"] = path
