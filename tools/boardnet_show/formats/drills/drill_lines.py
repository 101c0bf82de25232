"""The one reader of drill files, Excellon and XNC: each line with its number, byte and part, and its record.

Nothing is judged. A record has numbers as they are written: what they mean is a matter of unit and digits.
"""
import re
from functools import lru_cache
from typing import Callable, Dict, List, NamedTuple, Optional, Sequence, Tuple, Union

from boardnet_show.formats.units import INCH, MM

BLANKS = b" \t\r"
# Parts of a file: before `M48`, up to `%` or `M95`, up to `M30`, and behind. Without `M48` there is no header.
FRONT, HEADER, BODY, BEHIND = "front", "header", "body", "behind"
START, HEADER_ENDS, END = b"M48", (b"%", b"M95"), b"M30"
# What `check` takes for a decimal, and more digits.
NUMBER = rb"[+-]?(?:[0-9]{1,30}\.?[0-9]{0,30}|\.[0-9]{1,30})"
XY = rb"(?:X(" + NUMBER + rb"))?(?:Y(" + NUMBER + rb"))?"
PLACES = re.compile(rb"(G0?[01](?=[XY]))?" + XY + rb"(?:(G85)" + XY + rb")?")
TOOL = re.compile(rb"T([0-9]{1,4})((?:[A-Z]" + NUMBER + rb")+)")
PARAMETER = re.compile(rb"([A-Z])(" + NUMBER + rb")")
PICK = re.compile(rb"T([0-9]{1,4})")
UNIT = re.compile(rb"(METRIC|INCH)(?:,([^;]*))?")
DIGITS = re.compile(rb"(0+)\.(0+)")
REPEAT = re.compile(rb"R([0-9]{1,6})" + XY)
UNITS: Dict[bytes, int] = {b"METRIC": MM, b"INCH": INCH}
# The same in one word each.
MODES: Dict[bytes, int] = {b"M71": MM, b"M72": INCH}
TOOL_DOWN, TOOL_UP = (b"M15",), (b"M16", b"M17")


class Place(NamedTuple):
    """The numbers of a place as they are written; what is missing stays as it was."""

    x: Optional[bytes]
    y: Optional[bytes]


class Hit(NamedTuple):
    """A hole, or between two places a slot."""

    places: Tuple[Place, ...]


class Move(NamedTuple):
    """`G00`: the tool goes there, up."""

    place: Place


class Rout(NamedTuple):
    """`G01`: the tool goes there, down."""

    place: Place


class Repeat(NamedTuple):
    """The hole before once more and again, each time a step further."""

    times: int
    step: Place


class Tool(NamedTuple):
    """The definition of a tool: its letters with their numbers, of which `C` is its size."""

    number: int
    name: bytes
    parameters: Tuple[Tuple[bytes, bytes], ...]

    def sizes(self) -> Tuple[bytes, ...]:
        return tuple(value for letter, value in self.parameters if letter == b"C")


class Pick(NamedTuple):
    number: int


class Unit(NamedTuple):
    """`METRIC` or `INCH` with the words behind: `TZ`, `LZ`, digits before and behind the point, and `rest`, all
    others."""

    unit: int
    name: bytes
    zeros: Tuple[bytes, ...]
    digits: Tuple[Tuple[int, int], ...]
    rest: Tuple[bytes, ...]


class Mode(NamedTuple):
    """`M71` or `M72`."""

    unit: int


class Comment(NamedTuple):
    text: bytes


class Other(NamedTuple):
    """Any other line, an empty one too."""

    text: bytes


Record = Union[Hit, Move, Rout, Repeat, Tool, Pick, Unit, Mode, Comment, Other]


def hit_of(text: bytes) -> Optional[Record]:
    found = PLACES.fullmatch(text)
    if not found or not text:
        return None
    code, x, y, slot, to_x, to_y = found.groups()
    place = Place(x, y)
    if code is None:
        return Hit((place, Place(to_x, to_y))) if slot else Hit((place,))
    if slot:
        return None
    return Rout(place) if code.endswith(b"1") else Move(place)


def tool_of(text: bytes) -> Optional[Record]:
    picked, defined = PICK.fullmatch(text), TOOL.fullmatch(text)
    if picked:
        return Pick(int(picked[1]))
    return Tool(int(defined[1]), text[: defined.end(1)], tuple(PARAMETER.findall(defined[2]))) if defined else None


def unit_of(text: bytes) -> Optional[Record]:
    found = UNIT.fullmatch(text)
    if not found:
        return None
    words = found[2].split(b",") if found[2] is not None else []
    digits = [(word, DIGITS.fullmatch(word)) for word in words]
    return Unit(
        UNITS[found[1]],
        found[1],
        tuple(word for word in words if word in (b"TZ", b"LZ")),
        tuple((len(it[1]), len(it[2])) for _, it in digits if it),
        tuple(word for word, it in digits if not it and word not in (b"TZ", b"LZ")),
    )


def repeat_of(text: bytes) -> Optional[Record]:
    found = REPEAT.fullmatch(text)
    return Repeat(int(found[1]), Place(found[2], found[3])) if found and (found[2] or found[3]) else None


# By the first letter.
READERS = {b"X": hit_of, b"Y": hit_of, b"G": hit_of, b"T": tool_of, b"M": unit_of, b"I": unit_of, b"R": repeat_of}


def record_of(text: bytes) -> Record:
    """What a line says, without the blanks at its ends."""
    first = text[:1]
    if first == b";":
        return Comment(text)
    if text in MODES:
        return Mode(MODES[text])
    reader = READERS.get(first)
    return (reader(text) if reader else None) or Other(text)


def places_of(record: Record) -> Tuple[Place, ...]:
    """The places of a hole, a slot, a move or a rout; none of any other line."""
    if isinstance(record, Hit):
        return record.places
    return (record.place,) if isinstance(record, (Move, Rout)) else ()


def numbers(record: Record) -> List[bytes]:
    """The numbers of a line's places, and of the step of repeats."""
    places = (record.step,) if isinstance(record, Repeat) else places_of(record)
    return [number for place in places for number in place if number is not None]


def text_of(record: Record, places: Sequence[Place]) -> bytes:
    """A hole, a slot, a move or a rout as a line, with these places."""
    code = b"G00" if isinstance(record, Move) else b"G01" if isinstance(record, Rout) else b""
    return code + b"G85".join((b"" if x is None else b"X" + x) + (b"" if y is None else b"Y" + y) for x, y in places)


def with_numbers(record: Record, change: Callable[[bytes], bytes]) -> bytes:
    """The same with each number changed."""
    return text_of(record, [Place(*(it if it is None else change(it) for it in place)) for place in places_of(record)])


class Line(NamedTuple):
    """A line without the blanks at its ends, the byte where it begins, and the part in which it stands."""

    number: int
    start: int
    text: bytes
    part: str

    def record(self) -> Record:
        return record_of(self.text)


def lines(data: bytes) -> Sequence[Line]:
    """The lines of a drill file. Who listens to one file asks in turn, so the last few are kept."""
    return cut(data)


@lru_cache(maxsize=4)
def cut(data: bytes) -> Sequence[Line]:
    found: List[Line] = []
    part, start, has_header = FRONT, 0, re.search(rb"^[ \t]*M48[ \t\r]*$", data, re.M)
    for number, raw in enumerate(data.split(b"\n"), 1):
        text = raw.strip(BLANKS)
        found.append(Line(number, start, text, part))
        start += len(raw) + 1
        if text[:1] not in b"M%":
            continue
        if part == FRONT and text == START:
            part = HEADER
        elif text in HEADER_ENDS and (part == HEADER or part == FRONT and not has_header):
            part = BODY
        elif part == BODY and text == END:
            part = BEHIND
    return tuple(found)


def first_unit(data: bytes) -> Optional[int]:
    """The unit that a line of the header says first, if one does."""
    for line in lines(data):
        record = line.record() if line.part == HEADER and line.text[:1] in b"MI" else None
        if isinstance(record, Unit):
            return record.unit
        if line.part == BODY:
            break
    return None
