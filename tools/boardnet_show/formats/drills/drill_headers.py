"""Drill files with the header that `check` wants: `M48`, a unit, each tool with its size, `%`.

Other tools say the same elsewhere: Allegro in comments, older ones by lines such as `T1C0.028F200S100` in the body,
and the unit by `M71` or `M72` behind the tools. What such a file says is written as a header; its other lines stay in
their order.
"""
import re
from decimal import Decimal
from fractions import Fraction
from typing import Dict, Iterator, List, NamedTuple, Optional, Set, Tuple

from boardnet_show.formats.units import INCH, MM, decimal_millimetres

from .drill_lines import (
    BEHIND,
    BODY,
    HEADER,
    HEADER_ENDS,
    START,
    Comment,
    Hit,
    Line,
    Mode,
    Move,
    Pick,
    Record,
    Repeat,
    Rout,
    Tool,
    Unit,
    lines,
)

# `;T01 Holesize 1. = 39.370079 Tolerance = +0.000000/-0.000000 PLATED MILS Quantity = 2` of Allegro, also without
# `T01`.
HOLESIZE = re.compile(
    rb";[ \t]*(?:T([0-9]{1,4})[ \t]+)?Holesize[ \t]+([0-9]{1,4})\.?[ \t]*=[ \t]*([0-9]*\.?[0-9]+)[ \t].*?[ \t]"
    rb"(MILS?|MM|MILLIMETERS?|INCH(?:ES)?|MICRONS?)\b(?:[ \t]+Quantity[ \t]*=[ \t]*([0-9]+))?",
    re.I,
)
LENGTHS = ((b"MIL", INCH // 1000), (b"MICRON", MM // 1000), (b"MM", MM), (b"MILLIMETER", MM), (b"INCH", INCH))
DECIMAL = re.compile(rb"\+?(?:[0-9]+\.[0-9]*|\.[0-9]+)")
STOP = b"M00"
NAMES = {MM: b"METRIC", INCH: b"INCH"}
# Words on plating, and the comment that holds on, which who asks for plating finds where it stands.
PLATED = re.compile(rb"PLATED|PTH", re.I)
TYPE = re.compile(rb";[ \t]*TYPE[ \t]*=", re.I)


class Headed(NamedTuple):
    """A drill file with a header; `added` lines stand behind the first `front` ones. `is_metric` says that its header
    is in millimetres where the places are in another unit."""

    data: bytes
    front: int = 0
    added: int = 0
    is_metric: bool = False

    def line(self, number: int) -> int:
        """The number of a line in the file as it came."""
        return number - self.added if number > self.front + self.added else min(number, self.front + 1)


class Sized(NamedTuple):
    """A tool by a comment: its number, its size as a file in millimetres has it, and how many holes it makes."""

    number: int
    size: bytes
    quantity: Optional[int]


def length_of(word: bytes) -> int:
    """The length that a word of LENGTHS says, in u; the plural is the same."""
    return next(u for name, u in LENGTHS if word.upper().startswith(name))


def millimetres(text: bytes, unit: int) -> bytes:
    """A size in millimetres: the even u within half of its last digit, else the number as exactly as it is written."""
    exact = Fraction(text.decode()) * unit
    even = 2 * round(exact / 2)
    digits = len(text.partition(b".")[2])
    if abs(exact - even) * 2 * 10**digits <= unit:
        return decimal_millimetres(even).encode()
    return scaled(text, unit)


def scaled(number: bytes, unit: int) -> bytes:
    """A number with a point in millimetres, exactly."""
    return format(Decimal(number.decode()) * unit / MM, "f").encode()


def commented(its: List[Line]) -> List[Sized]:
    """The tools of comments, in their order."""
    found = []
    for line in its:
        said = HOLESIZE.match(line.text) if line.text.startswith(b";") else None
        if said:
            size = millimetres(said[3], length_of(said[4]))
            found.append(Sized(int(said[1] or said[2]), size, int(said[5]) if said[5] else None))
    return found


def holes_of(record: Record) -> int:
    """How many holes a line makes."""
    return record.times if isinstance(record, Repeat) else isinstance(record, Hit)


def is_counted(its: List[Line]) -> bool:
    """Whether each tool makes as many holes as a comment says of it."""
    counts: Dict[int, int] = {}
    tool = 0
    for line in its:
        record = line.record()
        tool = record.number if isinstance(record, Pick) else tool
        counts[tool] = counts.get(tool, 0) + holes_of(record)
    return all(it.quantity in (None, counts.get(it.number, 0)) for it in commented(its))


def is_defined(record: Record) -> bool:
    """Whether a line defines a tool by one size with a point."""
    return isinstance(record, Tool) and len(record.sizes()) == 1 and bool(DECIMAL.fullmatch(record.sizes()[0]))


def before_each(its: List[Line]) -> Iterator[Tuple[Line, Record, List[Line]]]:
    """Each line that is no comment, with the comments right before it."""
    comments: List[Line] = []
    for line in its:
        if line.text.startswith(b";"):
            comments.append(line)
        elif line.text:
            yield line, line.record(), comments
            comments = []


class Moved:
    """Definitions of tools that go to the header, each with the comments right before it, which may say whether it is
    plated."""

    def __init__(self, sizes: Dict[int, bytes]) -> None:
        self.header: List[bytes] = []
        self.sizes = sizes
        self.comments: Set[int] = set()
        self.is_twice = False

    def define(self, number: int, size: bytes, comments: List[Line]) -> None:
        """What comes again has the same size, and no comment says otherwise of it whether it is plated."""
        if number in self.sizes:
            self.is_twice |= self.sizes[number] != size
            return
        self.comments |= {line.number for line in comments}
        self.header += [*(line.text for line in comments), b"T%dC%s" % (number, size)]
        self.sizes[number] = size

    def leaves(self, its: List[Line]) -> bool:
        """Whether a tool has two sizes, or a comment that stays says of something whether it is plated, but for what
        holds on."""
        return self.is_twice or any(
            PLATED.search(line.text) and not TYPE.match(line.text)
            for line in its
            if line.text.startswith(b";") and line.number not in self.comments
        )


class Frame:
    """Writes the header of a file without `M48`."""

    def __init__(self, its: List[Line], unit: Optional[int]) -> None:
        self.its, self.unit = its, unit
        self.front = next((k for k, line in enumerate(its) if line.text and not line.text.startswith(b";")), len(its))
        self.moved = Moved({})
        self.sized = commented(its[: self.front])
        self.changed: Dict[int, bytes] = {}
        self.first_pick = b""
        # A later unit would be that of the places behind it alone.
        self.has_units = len({it.unit for it in (line.record() for line in its) if isinstance(it, (Unit, Mode))}) > 1
        self.read()

    def read(self) -> None:
        # Behind a hole such a line ends no header: it stays.
        ends = [line.number for line in self.its if line.text in HEADER_ENDS and not self.has_place(0, line.number)]
        for line, record, comments in before_each(self.its):
            if isinstance(record, Tool) and is_defined(record):
                size, its = self.size(record.sizes()[0]), [it for it in comments if it.number > self.front]
                self.moved.define(record.number, size, its)
                # Before the header's end a definition selects nothing.
                is_picked = not any(end > line.number and not self.has_place(line.number, end) for end in ends)
                self.changed[line.number] = b"T%d" % record.number if is_picked else b""
            elif line.number in ends or isinstance(record, (Unit, Mode)) and record.unit == self.unit:
                self.changed[line.number] = b""
        if not self.moved.header:
            for it in self.sized:
                self.moved.define(it.number, it.size, [])
            if self.sized and not any(isinstance(line.record(), Pick) for line in self.its):
                self.pick_by_stops()

    def has_place(self, first: int, last: int) -> bool:
        return any(isinstance(line.record(), (Hit, Move, Rout)) for line in self.its[first:last])

    def size(self, text: bytes) -> bytes:
        return scaled(text, self.unit or MM)

    def pick_by_stops(self) -> None:
        """Each `M00` goes on to the next tool, where there are as many as tools and each makes as many holes as it
        says."""
        stops = [line.number for line in self.its if line.text == STOP]
        bounds = [0, *stops, len(self.its)]
        counts = [sum(holes_of(line.record()) for line in self.its[a:b]) for a, b in zip(bounds, bounds[1:])]
        if counts[-1] == 0 and len(counts) > 1:
            counts.pop()
        if counts != [it.quantity for it in self.sized]:
            self.moved = Moved({})
            return
        self.first_pick = b"T%d" % self.sized[0].number
        for stop, it in zip(stops, [*self.sized[1:], None]):
            self.changed[stop] = b"T%d" % it.number if it else b""

    def headed(self, raw: List[bytes]) -> Optional[Headed]:
        if not self.moved.header or self.has_units or self.moved.leaves(self.its[self.front :]):
            return None
        header = [START, *([NAMES[MM]] if self.unit else []), *self.moved.header, b"%"]
        header += [self.first_pick] if self.first_pick else []
        body = [self.changed.get(number, text) for number, text in enumerate(raw, 1)]
        return Headed(
            b"\n".join([*body[: self.front], *header, *body[self.front :]]),
            self.front,
            len(header),
            self.unit not in (None, MM),
        )


def hoisted(data: bytes, its: List[Line], unit: Optional[int]) -> Headed:
    """A file with `M48` whose header has the unit before the tools, and the tools that the body defines."""
    start = next(line.number for line in its if line.text == START)
    end = next((line.number for line in its if line.part == HEADER and line.text in HEADER_ENDS), 0)
    raw = data.split(b"\n")
    records = [(line, line.record()) for line in its if line.part in (HEADER, BODY) and line.text[:1] in b"TMI"]
    moved = Moved(
        {
            record.number: b"".join(record.sizes())
            for line, record in records
            if line.part == HEADER and isinstance(record, Tool)
        }
    )
    if any(line.part == BODY and isinstance(record, Tool) for line, record in records):
        for line, record, comments in before_each([line for line in its if line.part == BODY]):
            if isinstance(record, Tool) and is_defined(record):
                moved.define(record.number, record.sizes()[0], comments)
                raw[line.number - 1] = b"T%d" % record.number
        if moved.leaves([line for line in its if line.part == BODY]):
            return Headed(data)
    added = moved.header if end else []
    first = next((record for _, record in records if isinstance(record, (Tool, Unit, Mode))), None)
    if added:
        return Headed(b"\n".join([*raw[: end - 1], *added, *raw[end - 1 :]]), end - 1, len(added))
    if unit and isinstance(first, Tool):
        return Headed(b"\n".join([*raw[:start], NAMES[unit], *raw[start:]]), start, 1)
    return Headed(b"\n".join(raw))


def headed(data: bytes, unit: Optional[int] = None) -> Headed:
    """A drill file with its header, which has the unit where it is known; as it is where it has one, or says no
    tools."""
    its = list(lines(data))
    if any(line.text == START for line in its if line.part != BEHIND):
        return hoisted(data, its, unit)
    return Frame(its, unit).headed(data.split(b"\n")) or Headed(data)


def is_drilled(data: bytes) -> bool:
    """Whether a file without `M48` is a drill file all the same: each line is one of such a file, with tools, holes,
    an end."""
    has_hole, has_tool, has_end = False, False, False
    for line in lines(data):
        record = line.record()
        if isinstance(record, Comment):
            has_tool = has_tool or bool(HOLESIZE.match(record.text))
        elif is_defined(record):
            has_tool = True
        elif isinstance(record, Hit):
            has_hole = True
        elif line.text == b"M30":
            has_end = True
        elif not re.fullmatch(rb"[A-Z/%][A-Z0-9,.+/-]*|", line.text):
            return False
    return has_hole and has_tool and has_end
