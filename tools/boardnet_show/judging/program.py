"""The program, run in the scratch folder: its status, its output, and its line."""
import os
import subprocess
from typing import Any, NamedTuple, Optional

from boardnet_show.base import refusals
from boardnet_show.base.progress import Progress
from boardnet_show.base.statuses import REFUSED, Stop
from boardnet_show.intake.package import Package

from . import building

TOOLS = os.path.dirname(os.path.dirname(os.path.dirname(os.path.abspath(__file__))))
# Where the program lies: beside the tools where it is installed, in a checkout where the gate or the launcher leaves
# it.
PLACES = (
    os.path.join(TOOLS, "boardnet"),
    os.path.join(os.path.dirname(TOOLS), "crates", "boardnet", "out", "boardnet"),
)
NO_PROGRAM = 127


class Answer(NamedTuple):
    """What a command of the program answered; `line` is its line without `boardnet: `, and `refusal` what that says
    of a file."""

    status: int
    out: bytes
    line: str
    refusal: Optional[refusals.Refusal] = None


def found() -> str:
    """The program's place; where BOARDNET names one, no other is run."""
    named = os.environ.get("BOARDNET")
    for path in (named,) if named else PLACES:
        if os.access(path, os.X_OK) and not os.path.isdir(path):
            return os.path.abspath(path)
    if named:
        raise Stop(NO_PROGRAM, f"BOARDNET names {named}, which is no program that can be run")
    raise Stop(
        NO_PROGRAM, "the program is not built; `boardnet show` has one made, and BOARDNET names one that lies elsewhere"
    )


class Program:
    """The program; where it is not built yet, `path` is None until its first command."""

    def __init__(self, path: Optional[str], progress: Progress) -> None:
        self.path: Any = path
        self.progress = progress
        self.running: Any = None
        self.unbuilt: Optional[Stop] = None

    def built(self, package: Package) -> None:
        """Has the program built; that is tried once."""
        if self.unbuilt:
            raise self.unbuilt
        try:
            self.progress.end()
            building.build(package)
            self.path = found()
        except Stop as stop:
            self.unbuilt = stop
            raise

    def run(self, package: Package, *words: str) -> Answer:
        """Runs a command on a package's files."""
        if not self.path:
            self.built(package)
        how = {"cwd": package.folder, "stdin": subprocess.DEVNULL, "stdout": subprocess.PIPE, "stderr": subprocess.PIPE}
        try:
            self.running = subprocess.Popen([self.path, *words], **how)
        except OSError as error:
            raise Stop(NO_PROGRAM, f"{self.path}: {error.strerror}") from None
        out, notes = self.ended()
        status, self.running = self.running.returncode, None
        if not 0 <= status <= 6:
            raise Stop(NO_PROGRAM, f"{self.path} {words[0]} ended with {status}")
        lines = [line for line in notes.decode("utf-8", "replace").split("\n") if line.startswith("boardnet: ")]
        line = lines[0][len("boardnet: ") :] if lines else ""
        return Answer(status, out, line, refusals.of_line(line) if status == REFUSED else None)

    def ended(self) -> Any:
        """The output of the running command, and what it noted."""
        try:
            while True:
                try:
                    return self.running.communicate(timeout=1)
                except subprocess.TimeoutExpired:
                    self.progress.tell()
        except BaseException:
            self.running.kill()
            self.running.wait()
            raise

    def check(self, package: Package) -> Answer:
        self.progress.begin("checking")
        return self.run(package, "check", package.name)

    def audit(self, package: Package, report: bytes) -> Answer:
        self.progress.begin("auditing the report")
        name = package.report_name()
        package.put(name, report)
        return self.run(package, "audit", package.name, name)

    def between(self, package: Package, lower: str, upper: str, counts: str) -> Answer:
        self.progress.begin("proving the bounds")
        return self.run(package, "between", package.name, lower, upper, counts)

    def flatten(self, package: Package, name: str) -> Answer:
        self.progress.begin(f"flattening {name}")
        return self.run(package, "flatten", name)

    def x2(self, package: Package) -> Answer:
        self.progress.begin("reading the labels of the copper")
        return self.run(package, "x2", package.name)

    def gaps(self, package: Package, nanometres: int) -> Answer:
        self.progress.begin("looking for nets that are close")
        return self.run(package, "gaps", package.name, str(nanometres))
