"""The unplated holes of a board: of tools and of files that say that they are unplated, as they came."""
import os
import re
from typing import Iterator, List, NamedTuple, Optional, Set

from boardnet_show.base.statuses import BadCopper
from boardnet_show.formats import gerber_attributes
from boardnet_show.formats.drills.drill_lines import (
    BODY,
    Comment,
    Hit,
    Mode,
    Move,
    Other,
    Pick,
    Repeat,
    Rout,
    Unit,
    places_of,
)
from boardnet_show.formats.drills.drill_plating import PlatedBy, Plating
from boardnet_show.formats.drills.drilled_holes import add_drilled
from boardnet_show.geometry.shapes import Shapes

from . import drill_files, file_kinds
from .evidence import drill_numbers
from .file_names import MOST_BYTES, Refused
from .package import Package

# Lines of a body that make no hole and say of no place how it is read.
HARMLESS = re.compile(rb"|%|G90|G05|M1[567]|M30|M0?0|FMAT,2|M47,.*|(?:[FS][0-9.]+)+")
DRILLS_AGAIN = b"G05"


class UnplatedHoles(NamedTuple):
    """The unplated holes of a drill file, each with its line and its capsule; none where the file's numbers are not
    known."""

    file: str
    lines: List[int]
    shapes: Shapes
    is_read: bool = True


class Source(NamedTuple):
    """A drill file, whether all its holes are unplated, and which a file beside it calls so."""

    name: str
    data: bytes
    is_all: bool
    by: Optional[PlatedBy] = None


def read_plain(path: str) -> bytes:
    """The bytes of a plain file that is no longer than `check` takes, else none."""
    try:
        if not os.path.isfile(path) or os.path.getsize(path) > MOST_BYTES:
            return b""
        with open(path, "rb") as file:
            return file.read()
    except OSError:
        return b""


def is_exact(plating: Plating) -> bool:
    """Whether a drill file says its unit first, and every number has a point, so that its places are known."""
    records = (line.record() for line in plating.lines if line.text[:1] in b"MI")
    said = [record for record in records if isinstance(record, (Mode, Unit))]
    if plating.head.added or not said or isinstance(said[0], Mode) or len({record.unit for record in said}) > 1:
        return False
    numbers = (number for line in plating.lines for place in places_of(line.record()) for number in place if number)
    return all(b"." in number for number in numbers)


def is_walked(plating: Plating) -> bool:
    """Whether each line of the body is one whose holes are known: no repeat, no arc, and no place in a rout without its
    code."""
    is_routing = False
    for line in plating.lines:
        record = line.record() if line.part == BODY else Comment(b"")
        if isinstance(record, Repeat) or isinstance(record, Other) and not HARMLESS.fullmatch(line.text):
            return False
        if isinstance(record, Hit) and is_routing:
            return False
        is_routing = isinstance(record, (Move, Rout)) or is_routing and line.text != DRILLS_AGAIN
    return True


def is_gerber(data: bytes) -> bool:
    """Whether a file is one in the Gerber format that calls all its holes unplated."""
    is_of = file_kinds.look(data).kind == "gerber" and b"TF.FileFunction" in data
    return is_of and {it.fields[1] for it in gerber_attributes.functions(data) if it.fields[1:]} == {b"NonPlated"}


def unplated_lines(plating: Plating, is_all: bool) -> List[int]:
    """The lines that make unplated holes."""
    found, tool, unplated = [], 0, set(plating.unplated())
    for line in plating.lines:
        record = line.record() if line.part == BODY else None
        tool = record.number if isinstance(record, Pick) else tool
        if isinstance(record, (Hit, Rout)) and (is_all or tool in unplated):
            found.append(line.number)
    return found


def is_unplated(name: str, data: bytes) -> bool:
    """Whether a file that the manifest does not name is a drill file of unplated holes."""
    if file_kinds.look(data).kind != "drill":
        return is_gerber(data)
    plating = Plating(data)
    if {fields[0] for _, fields, _ in plating.functions} == {"NonPlated"} or plating.is_unplated_alone():
        return True
    try:
        found, _ = drill_files.of(name, data)
    except Refused:
        return False
    return found is not None and found.span == (0, 0)


def sources(package: Package) -> Iterator[Source]:
    """The drill files that may have unplated holes: those of the manifest as they came, and those that it leaves
    out."""
    for name in dict.fromkeys(name for name, _, _ in package.manifest.drills):
        data = read_plain(package.came.get(name, package.path(name)))
        yield Source(name, data, False, drill_numbers.plated_beside(name, data, package.around))
    named: Set[str] = {os.path.realpath(os.path.join(package.around, name)) for name in package.manifest.names()}
    for name in sorted(os.listdir(package.around)):
        path = os.path.join(package.around, name)
        data = b"" if os.path.realpath(path) in named else read_plain(path)
        if is_unplated(name, data):
            yield Source(name, data, True)


def holes_of(source: Source) -> UnplatedHoles:
    """The unplated holes of a drill file."""
    if source.is_all and is_gerber(source.data):
        return UnplatedHoles(source.name, [], Shapes(), False)
    plating, shapes = Plating(source.data, source.by), Shapes()
    lines = unplated_lines(plating, source.is_all)
    is_known = is_walked(plating) or not (source.is_all or plating.unplated())
    try:
        if lines:
            add_drilled(shapes, source.data, set(lines))
        is_read = is_known and (not lines or is_exact(plating) and len(shapes) == len(lines))
    except BadCopper:
        is_read = False
    return UnplatedHoles(source.name, lines, shapes) if is_read else UnplatedHoles(source.name, [], Shapes(), False)


def of_package(package: Package) -> Iterator[UnplatedHoles]:
    """The unplated holes of each file that has some."""
    for source in sources(package):
        found = holes_of(source)
        if found.lines or not found.is_read:
            yield found
