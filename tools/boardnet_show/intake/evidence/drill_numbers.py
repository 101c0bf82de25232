"""How the numbers of drill files without points are read: as the file itself says, or one that its tool writes beside
it."""
import os
import re
from typing import TYPE_CHECKING, Callable, List, Optional, Tuple

from boardnet_show.base.statuses import REFUSED, Stop
from boardnet_show.formats.drills.drill_lines import BODY, FRONT, Mode, Tool, Unit, lines
from boardnet_show.formats.drills.number_forms import Contradiction, Said, Settled, bare_numbers, said_of

if TYPE_CHECKING:
    from boardnet_show.formats.drills.drill_plating import PlatedBy

    from .drill_readings import Evidence

MOST_BYTES = 1_000_000  # of a file that says how another is read

HAS_HEADER = re.compile(rb"^[ \t]*M48[ \t\r]*$", re.M)
BARE = re.compile(rb"^[^;\n]*[XY][+-]?[0-9]+(?![0-9.])", re.M)


def says_unit_first(data: bytes) -> bool:
    """Whether the header says the unit before its tools."""
    for line in lines(data):
        record = line.record() if line.text[:1] in b"MIT" else None
        if isinstance(record, (Unit, Mode)) and line.part != FRONT:
            return line.part != BODY
        if isinstance(record, Tool) or line.part == BODY:
            return False
    return False


def needs_reading(data: bytes) -> bool:
    """Whether a drill file has numbers without a point, or no unit where it is looked for."""
    return bool(BARE.search(data)) or not says_unit_first(data)


class Folder:
    """The files that lie in one folder, for those that are asked after beside another."""

    def __init__(self, home: str) -> None:
        self.home = home

    def names(self, name: str) -> List[str]:
        """The names of the files beside one."""
        try:
            return sorted(os.listdir(os.path.join(self.home, os.path.dirname(name))))
        except OSError:
            return []

    def read(self, name: str) -> bytes:
        try:
            with open(os.path.join(self.home, name), "rb") as file:
                return file.read(MOST_BYTES)
        except OSError:
            return b""


def said(name: str, data: bytes, home: str) -> Tuple[Said, str]:
    """What a drill file says of its numbers, with what is said beside it, in words; a Contradiction where it says two
    things."""
    from boardnet_show.formats.drills.companions import agreed, companion_of  # few boards want them

    folder, base = Folder(home), os.path.basename(name)
    inside = os.path.dirname(name)
    beside = companion_of(base, data, folder.names(name), lambda other: folder.read(os.path.join(inside, other)))
    its = said_of(data)
    both = agreed(its, beside) if beside else its
    return (both, f"{beside.name} beside it says {beside.words}") if beside and both[:3] != its[:3] else (both, "")


def read_by(data: bytes, its: Said, why: str) -> Optional[Settled]:
    """How a file is read by what is said, where that is enough; a Contradiction where its numbers are no such
    numbers."""
    bare = bare_numbers(data) if BARE.search(data) else []
    form = its.form(bare) if bare else None
    if its.unit is None or bare and form is None and not HAS_HEADER.search(data):
        return None
    wrong = form.wrong_number(bare) if form else None
    if wrong and form:
        number = wrong[1].decode("latin-1")
        raise Contradiction(
            f"line {wrong[0]} has the number {number}, which is none of {form.words()}" + (f", as {why}" if why else "")
        )
    return Settled(its.unit, form, its.line if not why else 0, why)


def refusal(name: str, why: str) -> Stop:
    """What stops a board whose drill file contradicts itself, what lies beside it, or the pads."""
    return Stop(
        REFUSED,
        f"{name}: its numbers have no one meaning: {why}; to export: drill files with a decimal point in "
        "each number",
    )


def plated_beside(name: str, data: bytes, home: str) -> Optional["PlatedBy"]:
    """What a drill report beside a drill file says of its tools, where there is one; refused where they contradict each
    other."""
    folder, inside = Folder(home), os.path.dirname(name)
    others = [other for other in folder.names(name) if other.lower().endswith(".drr")]
    if not others:
        return None
    from boardnet_show.formats.drills import drill_reports  # few boards have one

    read = lambda other: folder.read(os.path.join(inside, other))
    report = drill_reports.beside(os.path.basename(name), others, read)
    why = drill_reports.against(report, data) if report else ""
    if why:
        raise Stop(REFUSED, f"{name}: {why}; to export: the drill file and its report anew, at once")
    return report.plated_by() if report else None


class Settling:
    """Settles how the drill files of a board are read, one after the other. `doubts` are those that only evidence
    settles: the name, how it is read, and why."""

    def __init__(self, home: str, copper: Callable[[], List[bytes]]) -> None:
        self.home, self.copper = home, copper
        self.doubts: List[Tuple[str, str, str]] = []
        self.made: Optional["Evidence"] = None

    def evidence(self) -> "Evidence":
        """What the pads of the copper say, looked at once, where it is wanted."""
        from .drill_readings import Evidence  # few boards want it

        self.made = self.made or Evidence(self.copper)
        return self.made

    def __call__(self, name: str, data: bytes) -> Optional[Settled]:
        found = self.numbers(name, data)
        by = plated_beside(name, data, self.home)
        return (found or Settled(None, None))._replace(plated=by) if by else found

    def numbers(self, name: str, data: bytes) -> Optional[Settled]:
        """How the numbers of one are read."""
        found = settled(name, data, self.home)
        if found and found.form:
            why = self.evidence().against(data, found)
            if why:
                how = f"{found.why}, but " if found.why else "it says how they are read, but "
                raise refusal(name, how + why)
        if found and found.form or not BARE.search(data):
            return found
        taken = self.evidence().reading(data, said(name, data, self.home)[0])
        if taken:
            self.doubts.append((name, taken[1], taken[2]))
        return taken[0] if taken else found

    def taken(self) -> List[Tuple[str, str]]:
        """The files that evidence alone settles, each with how it is read and why."""
        return [(name, f"a drill file of {how}: {why}") for name, how, why in self.doubts]

    def sentences(self) -> List[str]:
        return [f"{name} as {how}" for name, how in self.taken()]


def settled(name: str, data: bytes, home: str) -> Optional[Settled]:
    """How a drill file is read; nothing where nothing is to be settled, or too little is said. One that contradicts
    itself or what lies beside it is refused."""
    if not needs_reading(data):
        return None
    try:
        return read_by(data, *said(name, data, home))
    except Contradiction as why:
        if not BARE.search(data):
            return None
        raise refusal(name, str(why)) from None
