"""What a drill file says of its numbers: unit, digits before and behind the point, and which zeros are left out.

A number without a point means nothing without these. What is said twice has to agree, and the numbers have to be such
as the words allow; else it is said where they contradict each other, and nothing is read.
"""
import re
from typing import TYPE_CHECKING, Iterator, List, NamedTuple, Optional, Tuple

from boardnet_show.formats.units import INCH, MM

from .drill_lines import BEHIND, Comment, Hit, Mode, Move, Rout, Unit, lines, numbers

if TYPE_CHECKING:
    from .drill_plating import PlatedBy

# Which zeros are left out, where it is said.
LEADING, TRAILING, NO_ZEROS = "leading", "trailing", "no"
ZEROS = {b"TZ": LEADING, b"LZ": TRAILING}
UNIT_NAMES = {MM: "millimetres", INCH: "inches"}
# `;FILE_FORMAT=2:5`, and KiCad's `; FORMAT={3:3/ absolute / metric / suppress leading zeros}`.
LAYOUT = re.compile(rb";[ \t]*(?:FILE_FORMAT[ \t]*=[ \t]*|FORMAT=\{)([0-9]):([0-9])([^\r\n]*)")
SUPPRESSED = {b"suppress leading zeros": LEADING, b"suppress trailing zeros": TRAILING, b"keep zeros": NO_ZEROS}
# What such a comment says of the unit, and of places.
LAYOUT_UNITS = {b"inch": INCH, b"metric": MM}
STEPS = b"incremental"


class Contradiction(Exception):
    """What a file, or one beside it, says in two ways."""


class NumberForm(NamedTuple):
    """Digits before and behind the point, 0 before it where that is not said, and which zeros are left out."""

    whole: int
    decimals: int
    zeros: str

    def width(self) -> int:
        return self.whole + self.decimals

    def pointed(self, number: bytes) -> bytes:
        """A number with its point."""
        digits = number.lstrip(b"+-")
        if b"." in number:
            return number
        sign = number[: len(number) - len(digits)]
        full = digits.ljust(self.width(), b"0") if self.zeros == TRAILING else digits.rjust(self.decimals + 1, b"0")
        at = len(full) - self.decimals
        return sign + full[:at] + b"." + (full[at:] or b"0")

    def wrong_number(self, its: List[Tuple[int, bytes]]) -> Optional[Tuple[int, bytes]]:
        """The first number, with its line, that a writer of this form would not have written."""
        return next(((line, number) for line, number in its if not self.is_written(number.lstrip(b"+-"))), None)

    def is_written(self, digits: bytes) -> bool:
        """Whether a writer of this form writes these digits: not too many, and none that it says it leaves out."""
        if b"." in digits or not digits.strip(b"0"):
            return True
        if not self.whole:
            return True
        if len(digits) >= self.width() or self.zeros == NO_ZEROS:
            return len(digits) == self.width()
        if self.zeros == TRAILING:
            # Some keep the digits before the point.
            return len(digits) <= self.whole or not digits.endswith(b"0")
        return not digits.startswith(b"0")

    def words(self, unit: str = "") -> str:
        """As people say it: 2.5 inches, trailing zeros left out."""
        layout = f"{self.whole}.{self.decimals}" if self.whole else f"{self.decimals} decimals"
        return layout + unit + (f", {self.zeros} zeros left out" if self.zeros != NO_ZEROS else "")


class Said(NamedTuple):
    """What is said of numbers; None where it is not. `line` is the first line that says digits or zeros, or else a
    unit."""

    unit: Optional[int] = None
    digits: Optional[Tuple[int, int]] = None
    zeros: Optional[str] = None
    line: int = 0

    def form(self, its: List[Tuple[int, bytes]]) -> Optional[NumberForm]:
        """How numbers without a point are read, where that is said: where all have all digits, zeros are no
        question."""
        if self.digits is None:
            return None
        all_digits = NumberForm(*self.digits, NO_ZEROS)
        if self.zeros is None:
            return all_digits if its and not all_digits.wrong_number(its) else None
        return NumberForm(*self.digits, self.zeros)


class Settled(NamedTuple):
    """How a drill file is read: its unit, how numbers without a point are read, the line that says it, 0 where none
    does, what else says it, in words, and which tools a file beside it calls plated."""

    unit: Optional[int]
    form: Optional[NumberForm]
    line: int = 0
    why: str = ""
    plated: Optional["PlatedBy"] = None


def bare_numbers(data: bytes) -> List[Tuple[int, bytes]]:
    """The numbers of places that have no point, each with its line."""
    return [(line.number, number) for line in lines(data) for number in numbers(line.record()) if b"." not in number]


def layouts(data: bytes) -> Iterator[Tuple[int, Tuple[int, int], Optional[str]]]:
    """Each line that says digits: its number, the digits, and which zeros are left out."""
    for line in lines(data):
        record = line.record()
        if isinstance(record, Unit):
            yield from ((line.number, digits, None) for digits in record.digits)
        found = LAYOUT.match(record.text) if isinstance(record, Comment) else None
        if found:
            zeros = next((zeros for words, zeros in SUPPRESSED.items() if words in found[3].lower()), None)
            yield line.number, (int(found[1]), int(found[2])), zeros


def zero_words(data: bytes) -> Iterator[Tuple[int, str]]:
    """Each line that says which zeros are left out."""
    for line in lines(data):
        record = line.record()
        if isinstance(record, Unit):
            yield from ((line.number, ZEROS[word]) for word in record.zeros)


def units(data: bytes) -> Iterator[Tuple[int, int]]:
    """Each line that says a unit before the first place."""
    for line in lines(data):
        record = line.record()
        if line.part == BEHIND or isinstance(record, (Hit, Move, Rout)):
            return
        if isinstance(record, (Unit, Mode)):
            yield line.number, record.unit


def layout_words(data: bytes) -> Iterator[Tuple[int, bytes]]:
    """The words behind the digits of each comment that says digits, with its line."""
    for line in lines(data):
        found = LAYOUT.match(line.text) if line.text[:1] == b";" else None
        if found:
            yield from ((line.number, word.strip()) for word in found[3].lower().split(b"/"))


def need_fit(data: bytes, unit: Optional[int]) -> None:
    """A Contradiction where a comment on digits says another unit than the lines do, or that places are steps."""
    for number, word in layout_words(data):
        if word == STEPS:
            raise Contradiction(f"line {number} says that places are steps, and only absolute ones are read")
        if None not in (unit, LAYOUT_UNITS.get(word)) and LAYOUT_UNITS[word] != unit:
            raise Contradiction(f"line {number} says another unit than the lines on it")


def said_of(data: bytes) -> Said:
    """What a drill file says of its numbers; a Contradiction where it says it in two ways."""
    its_units, its_layouts, its_zeros = list(units(data)), list(layouts(data)), list(zero_words(data))
    need_fit(data, its_units[0][1] if its_units else None)
    digits, zeros = {it for _, it, _ in its_layouts}, {it for _, it in its_zeros}
    if len({unit for _, unit in its_units}) > 1:
        raise Contradiction(f"lines {its_units[0][0]} and {its_units[-1][0]} say different units")
    if len(digits) > 1:
        raise Contradiction(f"lines {its_layouts[0][0]} and {its_layouts[-1][0]} say different digits")
    suppressed = {it for _, _, it in its_layouts if it}
    # All zeros kept and a word on zeros fit each other.
    zeros |= suppressed - ({NO_ZEROS} if zeros else set())
    if len(zeros) > 1:
        raise Contradiction("it says of leading and of trailing zeros that they are left out")
    lines_of = [*(line for line, *_ in its_layouts), *(line for line, _ in its_zeros), *(line for line, _ in its_units)]
    return Said(
        its_units[0][1] if its_units else None,
        next(iter(digits), None),
        next(iter(zeros), None),
        lines_of[0] if lines_of else 0,
    )
