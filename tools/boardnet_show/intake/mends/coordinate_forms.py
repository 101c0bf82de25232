"""Copper files whose numbers or contours have another form: zeros left out at the end, contours that enclose
nothing."""
import re
from typing import Dict, Iterator, List, Tuple, cast

from boardnet_show.formats.gerber_lexer import OPERATION, Parts, Word, pairs
from boardnet_show.formats.gerber_machine import STRAIGHT, Spot

from .edits import COMMENT, Edits, Reading
from .table import DIGITS, NO_AREA

# A format without a word on zeros, or with trailing ones left out.
ZEROS = re.compile(rb"FS(T?)A(?:N[0-9])?(?:G[0-9])?(X([1-6])([2-7])Y\3\4)(?:D[0-9])?(?:M[0-9])?")
NUMBER = re.compile(rb"([XYIJ][+-]?)([0-9]+)")
PREFIX = b"G55"  # before a flash
MOST_EDGES_WITHOUT_AREA = 2
# Contours of one or two edges, as most files would have them.
SHORT = re.compile(
    rb"(?:G36|D0?2)\*[\t\n\r ]*(?:(?:G0?1)?[XY][XY0-9+-]*(?:D0?1)?\*[\t\n\r ]*){1,2}" rb"(?:G37\*|[XY0-9+-]*D0?2\*)"
)


class Coordinates(Reading):
    """The numbers of a file by their digits: `is_whole` says whether each has all, `padded` are words that get their
    zeros."""

    def __init__(self, data: bytes, digits: int) -> None:
        super().__init__()
        self.digits, self.count, self.is_known, self.is_whole = digits, 0, True, True
        self.padded: Dict[int, Tuple[int, bytes]] = {}
        self.read(data)

    def extended(self, word: Word) -> None:
        """Their numbers are decimals."""

    def operation(self, parts: Parts) -> None:
        self.numbers(cast(Word, self.word))

    def other(self, text: bytes) -> None:
        if text.startswith(PREFIX) and OPERATION.fullmatch(text[len(PREFIX) :]):
            self.numbers(cast(Word, self.word))
        elif NUMBER.search(text):
            self.is_known = False

    def numbers(self, word: Word) -> None:
        lengths = [len(digits) for _, digits in NUMBER.findall(word.text)]
        self.count += len(lengths)
        if lengths and max(lengths) > self.digits:
            self.is_known = False
        elif lengths and min(lengths) < self.digits:
            self.is_whole = False
            self.padded[word.start] = word.end, NUMBER.sub(self.padded_number, word.text)

    def padded_number(self, found: "re.Match[bytes]") -> bytes:
        return found[1] + found[2].ljust(self.digits, b"0")


def coordinates(edits: Edits) -> None:
    """Writes a format without a word on zeros, where all numbers have all digits, and one of trailing zeros left
    out."""
    formats = [it for it in pairs(edits.data) if it.text.startswith(b"FS")]
    match = ZEROS.fullmatch(formats[0].text) if len(formats) == 1 else None
    if not match:
        return
    trailing, axes, whole, decimals = match.groups()
    its = Coordinates(edits.data, int(whole) + int(decimals))
    if not its.is_known or not its.count or not (trailing or its.is_whole):
        return
    edits.put(formats[0].start, formats[0].end, b"FSLA" + axes, DIGITS)
    edits.edits.update(its.padded)


class Contours(Reading):
    """Contours that enclose nothing: their edges get no words, their moves stay."""

    def __init__(self, edits: Edits) -> None:
        super().__init__()
        self.edits = edits
        self.edges: List[Word] = []
        self.first: Spot = (0, 0)
        self.is_plain = True
        self.read(edits.data)

    def extended(self, word: Word) -> None:
        self.is_plain = False

    def operation(self, parts: Parts) -> None:
        if self.in_region and (parts[0] or parts[3]):
            self.is_plain = False
        super().operation(parts)

    def edge(self, start: Spot) -> None:
        if not self.edges:
            self.first = start
        self.edges.append(cast(Word, self.word))
        self.is_plain = self.is_plain and self.mode == STRAIGHT

    def arc_edge(self, start: Spot, centre: bytes) -> None:
        self.edges.append(cast(Word, self.word))
        self.is_plain = False

    def contour(self, start: Spot) -> None:
        self.close(start)

    def region_begins(self) -> None:
        super().region_begins()
        self.close(self.spot)

    def region_ends(self) -> None:
        super().region_ends()
        self.close(self.spot)

    def close(self, end: Spot) -> None:
        if self.is_plain and 0 < len(self.edges) <= MOST_EDGES_WITHOUT_AREA and self.first == end:
            for word in self.edges:
                self.edits.edits[word.start] = word.end, COMMENT
            self.edits.note(self.edges[0].start, self.edges[0].end, NO_AREA)
        self.edges, self.is_plain = [], True


def bodies(data: bytes) -> Iterator[Tuple[int, int]]:
    """From where to where regions are, as most files have them."""
    at = data.find(b"G36*")
    while at >= 0:
        end = data.find(b"G37*", at)
        if end < 0:
            return
        yield at, end + len(b"G37*")
        at = data.find(b"G36*", end)


def contours(edits: Edits) -> None:
    """Leaves out contours that enclose nothing."""
    if any(SHORT.search(edits.data, *body) for body in bodies(edits.data)):
        Contours(edits)
