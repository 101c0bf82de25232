"""A refusal of a file, as the program says it in a line: read once, here."""
import re
from typing import NamedTuple, Optional

LINE = (
    r"(?P<file>.*): (?P<form>Gerber|drill|netlist|flatten) (?P<number>\d+) (?P<kind>\w+) "
    r"at (?P<unit>command|line) (?P<place>\d+)(?:, byte (?P<byte>\d+))?"
)
GERBER, FLATTEN = "Gerber", "flatten"
MACRO, WRONG_LAYER, IMPLIED_DECIMALS, BAD_ACCESS = "Macro", "WrongLayer", "ImpliedDecimals", "BadAccess"
# What copper files hold that bounds may be given for.
BOUNDED = {
    "ClearPolarity",
    "Arc",
    MACRO,
    "Block",
    "Polygon",
    "Hole",
    "Transform",
    "ApertureTwice",
    "PenNotCircle",
    "OffGrid",
    "NegativeFile",
    "TooManyVertices",
    "NoOperation",
}


class Refusal(NamedTuple):
    """The file, what it was read as, the number and the name of the kind, and where: a command or a line, and the byte
    where one is said. `is_comment` where it is by an attribute in a comment, which the program passes over."""

    file: str
    form: str
    number: int
    kind: str
    unit: str
    place: int
    byte: Optional[int] = None
    is_comment: bool = False

    def line(self) -> str:
        """The line of the program that says it."""
        place = f"{self.unit} {self.place}" + ("" if self.byte is None else f", byte {self.byte}")
        by = ", by an attribute in a comment, which `check` passes over" if self.is_comment else ""
        return f"{self.file}: {self.form} {self.number} {self.kind} at {place}{by}"

    def has_bounds(self) -> bool:
        """Whether it is of a kind that bounds can answer."""
        return self.form == FLATTEN or self.form == GERBER and self.kind in BOUNDED


class Advice(NamedTuple):
    """The way out of a refusal: the line of the file, 0 where the refusal says it, and what to export, in words of
    the tool that wrote it."""

    line: int
    export: str


def of_line(line: str) -> Optional[Refusal]:
    """The refusal that a line of the program says, or None."""
    found = re.fullmatch(LINE, line)  # few boards are refused, and reading patterns takes long
    if not found:
        return None
    its = found.groupdict()
    byte = int(its["byte"]) if its["byte"] else None
    return Refusal(its["file"], its["form"], int(its["number"]), its["kind"], its["unit"], int(its["place"]), byte)
