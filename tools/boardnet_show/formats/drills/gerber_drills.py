"""Drill files in the Gerber format as XNC files: a flash of a circle is a hole, a straight draw a slot, each place
and size exactly."""
import re
from decimal import Decimal
from typing import Dict, List, NamedTuple, NoReturn, Optional

from boardnet_show.formats import gerber_attributes
from boardnet_show.formats.gerber_machine import STRAIGHT, Machine, Spot, definition_of
from boardnet_show.formats.units import MM
from boardnet_show.geometry.exact import DECIMAL, Refused

FORMAT = re.compile(r"FSLAX([0-9])([0-9])Y\1\2")
MOST_TOOLS = 9_999
UNPLATED = re.compile(r"TA\.AperFunction,[ \t]*(?:NonPlated|BackDrill)\b", re.I)
# Words in pairs of percent signs that change nothing.
IDLE = re.compile(r"(?:LN|IN).*|IPPOS|OFA0B0|SFA1B1|MIA0B0|IR0|ASAXBY", re.S)


def decimal(value: Decimal) -> bytes:
    text = format(value, "f")
    return (text if "." in text else text + ".0").encode()


class Drilled(Machine):
    """Goes through a file; `body` is what it makes, as lines. What is neither a hole nor a slot refuses it."""

    def __init__(self, data: bytes) -> None:
        super().__init__()
        self.data = data
        self.sizes: Dict[int, Optional[str]] = {}
        self.used: List[int] = []
        self.body: List[bytes] = []
        self.flashes = self.draws = 0
        self.scale: Optional[int] = None
        self.decimals: Optional[int] = None
        self.tool: Optional[int] = None
        self.is_ended = False
        self.read(data)
        if not self.is_ended:
            self.refuse("it has no end")

    def refuse(self, why: str) -> NoReturn:
        raise Refused(f"line {self.line(self.data)}: {why}")

    # ---- what a hole needs

    def format_word(self, text: str) -> None:
        found = FORMAT.fullmatch(text)
        if not found or self.decimals is not None:
            self.refuse("its format is not one with leading zeros left out and absolute places")
        self.decimals = int(found[2])

    def unit_word(self, scale: int, text: str) -> None:
        if self.scale not in (None, scale):
            self.refuse("it has two units")
        self.scale = scale

    def define(self, text: str) -> None:
        it = definition_of(text)
        if not it or it.number in self.sizes:
            self.refuse("an aperture is defined twice, or in a form that is not read")
        is_circle = it.template == "C" and len(it.values()) == 1 and bool(DECIMAL.fullmatch(it.values()[0]))
        self.sizes[it.number] = it.values()[0] if is_circle else None

    def select(self, number: int, text: bytes) -> None:
        self.tool = number
        self.body.append(b"T%d" % number)

    def needs(self) -> None:
        """Has a tool of a known size, and coordinates of a known length, before the end."""
        if self.is_ended:
            self.refuse("a hole stands behind its end")
        if self.tool is None or self.sizes.get(self.tool) is None or self.tool > MOST_TOOLS:
            self.refuse("a hole is no flash or draw of a circle")
        if self.scale is None or self.decimals is None:
            self.refuse("a hole stands before its unit or its format")
        if not self.is_dark:
            self.refuse("a hole is clear")
        if self.tool not in self.used:
            self.used.append(self.tool)

    def place_words(self, spot: Spot) -> bytes:
        x, y = (decimal(Decimal(n).scaleb(-(self.decimals or 0)) * (self.scale or MM) / MM) for n in spot)
        return b"X" + x + b"Y" + y

    def flash(self) -> None:
        self.needs()
        self.flashes += 1
        self.body.append(self.place_words(self.spot))

    def draw(self, start: Spot) -> None:
        self.needs()
        if self.mode is not STRAIGHT:
            self.refuse("a slot is an arc")
        self.draws += 1
        self.body.append(self.place_words(start) + b"G85" + self.place_words(self.spot))

    # ---- what no drill file has

    def implied(self) -> None:
        self.refuse("an operation has no code")

    def mismatched(self, is_arc: bool) -> None:
        self.refuse("a slot is an arc" if is_arc else "a centre stands without an arc")

    def arc(self, start: Spot, centre: bytes) -> None:
        self.refuse("a slot is an arc")

    def region_begins(self) -> None:
        self.refuse("it has a region")

    def polarity(self, is_dark: bool) -> None:
        self.is_dark = is_dark

    def steps(self, text: str) -> None:
        self.refuse("it repeats what it has")

    def block(self, text: str) -> None:
        self.refuse("it has a block")

    def transform(self, text: str) -> None:
        if text not in ("LMN", "LR0", "LS1", "LR0.0", "LS1.0"):
            self.refuse("it mirrors, turns or scales")

    def other_setting(self, text: str) -> None:
        if not IDLE.fullmatch(text):
            self.refuse(f"its word {text[:40]} is not read")

    def attribute(self, text: str) -> None:
        if re.match(r"TF\.FilePolarity,[ \t]*negative", text, re.I):
            self.refuse("it is negative")
        if UNPLATED.match(text):
            self.refuse("it calls holes unplated")

    def other(self, text: bytes) -> None:
        if text not in (b"", b"G90"):
            self.refuse(f"its word {text[:40].decode('latin-1')} is not read")

    def end(self) -> None:
        self.is_ended = True

    # ---- what is written

    def tools(self) -> List[bytes]:
        its = {number: Decimal(self.sizes[number] or "0") * (self.scale or MM) / MM for number in self.used}
        return [b"T%dC%s" % (number, decimal(size)) for number, size in its.items()]

    def written(self, function: bytes) -> bytes:
        known = set(self.used)
        body = [line for line in self.body if not line.startswith(b"T") or int(line[1:]) in known]
        front = [b"M48", b"; #@! TF.FileFunction," + function, b"METRIC", *self.tools(), b"%"]
        return b"\n".join([*front, *body, b"M30", b""])


class Written(NamedTuple):
    """The same holes and slots as XNC, how many there are, and the word of the file function."""

    data: bytes
    flashes: int
    draws: int
    function: gerber_attributes.Attribute


def written(data: bytes) -> Written:
    """The file as XNC. What it cannot be is refused, with the line."""
    said = {b",".join(it.fields[1:]) for it in gerber_attributes.functions(data)}
    if len(said) != 1:
        raise Refused("it has no one file function")
    found = Drilled(data)
    return Written(found.written(said.pop()), found.flashes, found.draws, gerber_attributes.functions(data)[0])
