"""Words of a copper file that are written otherwise, so that all keep their numbers."""
from typing import Dict, Iterator, List, Tuple

from boardnet_show.formats.gerber_lexer import Broken, line_at
from boardnet_show.formats.gerber_machine import Machine

from .mend import Mend, short

NOTHING = b"TFleft_out"  # an attribute without a meaning, in a pair of percent signs
COMMENT = b"G04"
SIZES = {b"C": 1, b"R": 2, b"O": 2}  # of a standard aperture


class Reading(Machine):
    """A file as mends read it: one that is not cut into words is left as it is, what has no star at its end is no
    word."""

    def broken(self, data: bytes, broken: Broken) -> None:
        if broken.end < len(data):
            raise broken

    def comment(self, text: bytes) -> None:
        """Comments say nothing here."""


class Edits:
    """Words that are written otherwise. Each mend is noted by its kind, its first place and how often it comes."""

    def __init__(self, data: bytes) -> None:
        self.data = data
        self.edits: Dict[int, Tuple[int, bytes]] = {}
        self.found: Dict[Tuple[str, str], List[int]] = {}

    def put(self, start: int, end: int, text: bytes, kind: str, what: str = "") -> None:
        """Writes a word otherwise. A kind and what becomes of it make one mend; the first place is told."""
        self.edits[start] = end, text
        self.note(start, end, kind, what)

    def insert(self, at: int, text: bytes) -> None:
        """Writes something before a byte."""
        _, known = self.edits.get(at, (at, b""))
        self.edits[at] = at, known + text

    def note(self, start: int, end: int, kind: str, what: str = "") -> None:
        at = self.found.setdefault((kind, what), [start, end, 0])
        at[2] += 1

    def mended_bytes(self) -> bytes:
        """The file as it is mended; line feeds of a word that has none any more stand behind it, so that lines keep
        their numbers."""
        parts, at = [], 0
        for start in sorted(self.edits):
            end, text = self.edits[start]
            parts += [self.data[at:start], text]
            lost = self.data.count(b"\n", start, end) - text.count(b"\n")
            if lost > 0:
                parts.append(b"*" + b"\n" * lost)
            at = end + (lost > 0)
        return b"".join([*parts, self.data[at:]])

    def mends(self) -> Iterator[Mend]:
        """What was mended, in order of lines."""
        for (kind, what), (start, end, count) in sorted(self.found.items(), key=lambda entry: entry[1][0]):
            yield Mend(kind, line_at(self.data, start), short(self.data[start:end]), count - 1, what)
