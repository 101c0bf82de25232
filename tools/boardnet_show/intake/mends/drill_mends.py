"""The mends of a drill file. A line that goes leaves an empty one, so that lines keep their numbers, but for a header
and repeats that are written out."""
import re
from fractions import Fraction
from typing import Dict, List, Optional, Set, Tuple

from boardnet_show.formats.drills.drill_headers import Headed, headed, is_counted, scaled
from boardnet_show.formats.drills.drill_lines import (
    BEHIND,
    BLANKS,
    BODY,
    END,
    FRONT,
    HEADER,
    START,
    TOOL_DOWN,
    TOOL_UP,
    Hit,
    Line,
    Mode,
    Move,
    Pick,
    Place,
    Record,
    Repeat,
    Rout,
    Tool,
    Unit,
    first_unit,
    lines,
    numbers,
    places_of,
    record_of,
    text_of,
    with_numbers,
)
from boardnet_show.formats.drills.drill_plating import Plating
from boardnet_show.formats.drills.number_forms import Settled
from boardnet_show.formats.units import INCH, MM

from .mend import Mend, short
from .table import ENDS, FORCE, FORM, HEADERS, LIFT, MACHINE, NUMBERS, PLATING, REPEATS, UNIT

NO_POINT = re.compile(rb"^[^;\n]*[XYC][+-]?[0-9]+(?![0-9.])", re.M)
NO_POINT_SIZE = re.compile(rb"^[ \t]*T[^;\n]*C[+-]?[0-9]+(?![0-9.])", re.M)
PLACES_AND_COMMENTS = (b"X", b"Y", b";")
# Letters of a tool that say how the machine runs, beside its size.
MACHINE_LETTERS = b"CFSBHZ"
RUNS = re.compile(rb"(?:ATC|BLKD|DETECT|OSTOP|SBK|SG|TCST),(?:ON|OFF)|M47,[^;]*|(?:[FS][0-9.]+)+")
ZERO_SET = re.compile(rb"G93X[+-]?0*\.?0*Y[+-]?0*\.?0*")
IN_FORCE = (b"ICI,OFF", b"VER,1", b"G40")
# Of a header: what is cleared there is empty before any tool.
CLEARED = (b"R,H", b"R,C", b"R,CP", b"/")
STOP = b"M00"
REPEATED = re.compile(rb"^[ \t]*R[0-9]", re.M)
MOST_REPEATS = 10_000


class Drill:
    """Walks the lines of a drill file with a header; `lines` are what is written, `mends` what was changed."""

    def __init__(self, head: Headed, settled: Optional[Settled], has_repeats: bool) -> None:
        data = head.data
        self.head, self.lines = head, data.split(b"\n")
        self.found: Dict[str, List[Tuple[int, str, str]]] = {}
        self.form = settled.form if settled else None
        self.is_inch = head.is_metric
        self.has_points = not (NO_POINT_SIZE if self.form else NO_POINT).search(data)
        self.unit: Optional[int] = None
        self.is_down, self.has_tools, self.said = False, False, first_unit(data)
        plating, self.its = Plating(data, settled.plated if settled else None), list(lines(data))
        self.has_start = any(line.text == START for line in self.its)
        taken = Holes(self, plating, self.its).gone if plating.is_told() else set()
        for line in self.its:
            if line.text and line.number not in taken and not line.text.startswith(PLACES_AND_COMMENTS):
                self.line(line)
        if self.form or self.is_inch or has_repeats:
            Numbers(self, taken, has_repeats)
        if settled and self.form:
            self.say_numbers(settled)

    def put(self, at: int, text: bytes, kind: str, what: str = "") -> None:
        """Writes a line otherwise, and notes it."""
        self.found.setdefault(kind, []).append((self.head.line(at + 1), short(self.lines[at]), what))
        self.lines[at] = text + (b"\r" if self.lines[at].endswith(b"\r") else b"")

    def say_numbers(self, settled: Settled) -> None:
        """Notes how numbers without a point were read."""
        its = [line for line in self.its if any(b"." not in number for number in numbers(line.record()))]
        said = [line for line in self.its if self.head.line(line.number) == settled.line]
        if its and settled.form:
            line = said[-1] if said else its[0]
            form = settled.form.words()
            what = f"says how numbers without a point are read: they are written with one ({form})"
            if settled.why:
                what = f"is read as {form}, since {settled.why}: each number is written with a point"
            self.found[NUMBERS] = [(self.head.line(line.number), short(line.text), what)]

    def line(self, line: Line) -> None:
        part = {FRONT: self.front, HEADER: self.header, BODY: self.body, BEHIND: self.front}[line.part]
        part(line.number - 1, line.text, line.record())

    def front(self, at: int, text: bytes, _: Record) -> None:
        """Before the header, and behind the end."""
        if text == b"%" and self.has_start:
            self.put(at, b"", FORCE)

    def header(self, at: int, text: bytes, record: Record) -> None:
        if isinstance(record, Unit):
            self.unit_line(at, record)
        elif isinstance(record, Mode):
            self.mode_in_header(at, record.unit)
        elif text == b"M95":
            self.put(at, b"%", ENDS)
        elif isinstance(record, Tool):
            self.tool(at, record)
        elif RUNS.fullmatch(text):
            self.put(at, b"", MACHINE)
        elif text in (*IN_FORCE, b"G05", *CLEARED) or text == b"R,T" and not self.has_tools:
            self.put(at, b"", FORCE)

    def unit_line(self, at: int, record: Unit) -> None:
        if record.rest or self.unit not in (None, record.unit):
            return
        self.unit = record.unit
        if self.form:
            self.lines[at] = record.name
        elif (record.digits or len(record.zeros) > 1) and self.has_points:
            self.put(at, record.name, FORM)

    def mode_in_header(self, at: int, unit: int) -> None:
        """`M71` or `M72`: it says the unit of the header's other line, or in its place."""
        if self.said == unit:
            self.put(at, b"", UNIT)
        elif self.said is None and self.unit in (None, unit) and self.has_points:
            self.unit = unit
            name = b"METRIC" if unit == MM else b"INCH"
            self.put(at, name, FORM, f"says the unit: written as `{name.decode()}`" if self.form else "")

    def tool(self, at: int, tool: Tool) -> None:
        sizes = tool.sizes()
        self.has_tools = True
        if len(tool.parameters) > len(sizes) == 1 and all(letter in MACHINE_LETTERS for letter, _ in tool.parameters):
            text = tool.name + b"C" + sizes[0]
            self.put(at, text, MACHINE, f"says how the machine runs, behind the tool: written as `{text.decode()}`")

    def body(self, at: int, text: bytes, record: Record) -> None:
        if isinstance(record, (Mode, Unit)):
            more = () if isinstance(record, Mode) else record.zeros + record.digits
            is_known = isinstance(record, Mode) or not record.rest
            if self.unit == record.unit and is_known and (self.has_points or not more):
                self.put(at, b"", UNIT)
        elif text in (*IN_FORCE, b"FMAT,2", b"/") or ZERO_SET.fullmatch(text):
            self.put(at, b"", FORCE)
        elif text == b"M17":
            self.put(at, b"M16" if self.is_down else b"", LIFT if self.is_down else FORCE)
            self.is_down = False
        elif text in (b"M15", b"M16"):
            self.is_down = text == b"M15"
        elif RUNS.fullmatch(text) or text == STOP and self.is_between_tools(at):
            self.put(at, b"", MACHINE)

    def is_between_tools(self, at: int) -> bool:
        """Whether a tool or the end of the file is next."""
        behind = (line for line in self.its[at + 1 :] if line.text and not line.text.startswith(b";"))
        line = next(behind, None)
        return line is not None and (isinstance(line.record(), Pick) or line.text == END)

    def mends(self) -> List[Mend]:
        return [Mend(kind, *them[0][:2], len(them) - 1, them[0][2]) for kind, them in self.found.items()]


class Numbers:
    """Writes the places of a drill file with a point in each number, in the unit of the header, and repeats as
    holes."""

    def __init__(self, drill: Drill, taken: Set[int], has_repeats: bool) -> None:
        self.drill, self.has_repeats = drill, has_repeats
        self.at = [Fraction(0), Fraction(0)]
        # Whether the line before made a hole, and the axes along which repeats went and that no place has said since.
        self.is_hole, self.stepped = False, ""
        if has_repeats and not is_counted(drill.its):
            raise Unclear
        for line in drill.its:
            if line.part == BODY and line.number not in taken and line.text and not line.text.startswith(b";"):
                self.line(line.number, line.record())

    def pointed(self, number: bytes) -> bytes:
        """A number with its point, in the header's unit."""
        text = self.drill.form.pointed(number) if self.drill.form else number
        return scaled(text, INCH) if self.drill.is_inch and b"." in text else text

    def line(self, number: int, record: Record) -> None:
        if isinstance(record, Repeat) and self.is_hole and 0 < record.times <= MOST_REPEATS:
            self.repeat(number, record)
        elif places_of(record):
            # Where a hole was left out before it, the line has both coordinates already.
            record = record_of(self.drill.lines[number - 1].strip(BLANKS))
            if self.drill.form or self.drill.is_inch:
                self.drill.lines[number - 1] = with_numbers(record, self.pointed)
            for place in places_of(record) if self.has_repeats else ():
                self.go(place)
        self.is_hole = isinstance(record, (Hit, Repeat)) and len(places_of(record)) < 2

    def go(self, place: Place) -> None:
        for axis, number in enumerate(place):
            if number is not None:
                self.at[axis] = Fraction(self.pointed(number).decode())
                self.stepped = self.stepped.replace("XY"[axis], "")
            elif "XY"[axis] in self.stepped:
                # Whether it goes on from the hole or from its last repeat is not known.
                raise Unclear

    def repeat(self, number: int, record: Repeat) -> None:
        if not self.drill.form and any(b"." not in number for number in numbers(record)):
            # What a number without a point means is not known.
            raise Unclear
        step = [Fraction(0) if number is None else Fraction(self.pointed(number).decode()) for number in record.step]
        holes = []
        for _ in range(record.times):
            self.at = [a + b for a, b in zip(self.at, step)]
            holes.append(b"X%sY%s" % (decimal(self.at[0]), decimal(self.at[1])))
        self.stepped = "".join(axis for axis, by in zip("XY", step) if by) + self.stepped
        what = f"repeats a hole: written out as {len(holes)} more, so lines behind it count {len(holes) - 1} more"
        self.drill.put(number - 1, b"\n".join(holes), REPEATS, what)


class Unclear(Exception):
    """What a repeat leaves open."""


def decimal(value: Fraction) -> bytes:
    """A number of at most 18 decimals, as a file has it."""
    whole = abs(value) * 10**18
    digits = f"{whole.numerator // whole.denominator:019d}"
    return (("-" if value < 0 else "") + digits[:-18] + "." + (digits[-18:].rstrip("0") or "0")).encode()


class Holes:
    """Takes the holes of unplated tools out of a file whose tools all say what they are. Modes and moves stay. `gone`
    are the numbers of the lines that went."""

    def __init__(self, drill: Drill, plating: Plating, its: List[Line]) -> None:
        self.drill, self.unplated = drill, set(plating.unplated())
        self.gone: Set[int] = set()
        self.tool: Optional[int] = None
        self.last, self.has_gap = Place(b"0.0", b"0.0"), False
        for line in its if plating.tools else ():
            if line.part == BODY:
                self.line(line.number, line.text, line.record())
        if self.gone or plating.functions:
            self.say(plating)

    def say(self, plating: Plating) -> None:
        """Notes the mend, and writes the function of what is left."""
        tools = ", ".join(f"T{number}" for number in plating.unplated()) or "none"
        who = "and each tool says whether it is plated"
        if plating.beside:
            who = f"and {plating.beside.name} beside it says of each tool whether it is plated"
        what = (
            f"{who}: the holes of the unplated ones ({tools}) are left out, "
            f"{len(self.gone)} {'line' if len(self.gone) == 1 else 'lines'}"
        )
        at = plating.plating_line() - 1
        text = short(self.drill.lines[at], 60)
        for number, fields, _ in plating.functions:
            said = ",".join(["Plated", *fields[1:]])
            self.drill.lines[number - 1] = b"; #@! TF.FileFunction," + said.encode("latin-1")
        self.drill.found[PLATING] = [(self.drill.head.line(at + 1), text, what)]

    def line(self, number: int, text: bytes, record: Record) -> None:
        if isinstance(record, Pick):
            self.tool = record.number
        elif self.tool in self.unplated and (isinstance(record, (Hit, Rout, Repeat)) or text in TOOL_DOWN + TOOL_UP):
            self.note(record)
            self.drill.lines[number - 1] = b""
            self.gone.add(number)
            self.has_gap = True
        elif isinstance(record, (Hit, Move, Rout)):
            self.keep(number, record)

    def note(self, record: Record) -> None:
        """The last place of a line."""
        for place in places_of(record):
            self.last = Place(place.x or self.last.x, place.y or self.last.y)
        if isinstance(record, Repeat):
            # Where it ends is not reckoned.
            self.last = Place(None if record.step.x else self.last.x, None if record.step.y else self.last.y)

    def keep(self, number: int, record: Record) -> None:
        """A place that goes on from one that was taken out gets both coordinates."""
        first, *rest = places_of(record)
        if first != (None, None):
            if self.has_gap and None in first:
                whole = Place(first.x or self.last.x, first.y or self.last.y)
                if None in whole:
                    raise Unclear
                self.drill.lines[number - 1] = text_of(record, [whole, *rest])
            self.has_gap = False
        self.note(record)


def mended(data: bytes, settled: Optional[Settled] = None) -> Tuple[bytes, List[Mend]]:
    """A drill file as it is mended, and its mends; the same bytes where there are none."""
    return with_lines(data, settled)[:2]


def with_lines(data: bytes, settled: Optional[Settled] = None) -> Tuple[bytes, List[Mend], Optional[List[int]]]:
    """The same, and the line that came of each line, or None where each stands as it came."""
    head = headed(data, settled.unit if settled else None)
    try:
        drill = Drill(head, settled, bool(REPEATED.search(data)))
    except Unclear:
        # Repeats stay, so that `check` refuses them.
        return data, [], None
    mends = drill.mends()
    if head.added:
        mends.insert(0, header_mend(data, head, settled))
    if not mends:
        return data, [], None
    lines = [head.line(number) for number, text in enumerate(drill.lines, 1) for _ in text.split(b"\n")]
    return b"\n".join(drill.lines), mends, None if lines == list(range(1, len(lines) + 1)) else lines


def header_mend(data: bytes, head: Headed, settled: Optional[Settled]) -> Mend:
    """The mend of a header that was written."""
    text = short(data.split(b"\n")[min(head.front, data.count(b"\n"))])
    why = f" ({settled.why})" if settled and settled.why and not settled.form else ""
    unit = ", in millimetres" if head.is_metric else ""
    return Mend(
        HEADERS,
        head.front + 1,
        text,
        0,
        f"stands behind a header that is written of what the file says{why}"
        f"{unit}: lines from there on count {head.added} more",
    )
