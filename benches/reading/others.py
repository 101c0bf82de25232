"""The other readers: which are installed, in which versions, and a run of one with a limit of time."""
import os
import re
import shutil
import subprocess
import sys
import tempfile
import threading
from typing import List, NamedTuple, Optional

# Which Python has Pillow, for the pictures of gerbv; Debian's has it by the package python3-pil.
PYTHONS = (sys.executable, "/usr/bin/python3")
SECONDS = 300


States = Optional[List[Optional[int]]]


class Told(NamedTuple):
    """What a reader says: of each place a state, or None where it did not read the file; and its messages."""

    states: States
    said: str


def run(words: List[str], folder: str, seconds: int = SECONDS, until: bytes = b"") -> str:
    """What a reader prints, errors too; it is stopped when it is late, and at a line that has `until`."""
    more = {"QT_QPA_PLATFORM": "offscreen", "HOME": folder, "PYTHONDONTWRITEBYTECODE": "1"}
    how = {"stdin": subprocess.DEVNULL, "stdout": subprocess.PIPE, "stderr": subprocess.STDOUT}
    rows, late = [], threading.Event()
    with subprocess.Popen(words, cwd=folder, env={**os.environ, **more}, **how) as process:
        timer = threading.Timer(seconds, lambda: (late.set(), process.kill()))
        timer.start()
        for row in process.stdout:
            rows.append(row)
            if until and until in row:
                break
        timer.cancel()
        if until and rows and until in rows[-1]:
            process.kill()
    return f"stopped after {seconds} seconds" if late.is_set() else b"".join(rows).decode("utf-8", "replace")


def put(folder: str, name: str, data: bytes) -> str:
    path = os.path.join(folder, name)
    with open(path, "wb") as file:
        file.write(data)
    return path


def version(command: str, package: str) -> str:
    """The version of an installed reader, or nothing: by the package manager, else by its own word."""
    if not shutil.which(command):
        return ""
    with tempfile.TemporaryDirectory() as folder:
        if shutil.which("dpkg-query"):
            told = run(["dpkg-query", "-W", "-f", "${Version}", package], folder, 20)
            if re.match(r"\d", told):
                return re.sub(r"-[^-]*$", "", told)
        told = re.search(r"\d+\.[\w.]+", run([command, "--version"], folder, 20))
    return told[0] if told else "of no told version"


def python_with_pictures() -> str:
    """A Python that has Pillow, or nothing."""
    with tempfile.TemporaryDirectory() as folder:
        for python in PYTHONS:
            words = [python, "-c", "import PIL.Image; print('is', 'there')"]
            if os.access(python, os.X_OK) and run(words, folder, 20) == "is there\n":
                return python
    return ""
