"""Apertures and macros of a copper file: which are used, and those outside the profile that are not; words of macros
broken over lines."""
import re
from collections import defaultdict
from typing import List, Optional, Set, Tuple

from boardnet_show.formats.gerber_lexer import DECIMAL, Parts, Plain, Run, Word, choosing, in_u, pairs
from boardnet_show.formats.gerber_machine import LEAST_APERTURE, MOST_WIDE, Definition, definition_of
from boardnet_show.formats.units import SCALES

from .edits import COMMENT, NOTHING, SIZES, Edits, Reading
from .table import LINES, UNUSED

MOVES = (b"D02", b"D2")
MOST = 10**10  # 1 m in u
BLANKS = b" \t\r\n"
BLANK = re.compile(rb"[ \t\r\n]")


class Macro:
    """A macro's name and its words with their places; the first word is that of its name."""

    def __init__(self, name: bytes) -> None:
        self.name = name
        self.words: List[Tuple[int, int, bytes]] = []


class Aperture:
    """A definition's place, its number, its template and its parameters."""

    def __init__(self, word: Word, its: Definition) -> None:
        self.start, self.end, self.number, self.name = word.start, word.end, its.number, its.template.encode("latin-1")
        self.parts = None if its.parameters is None else its.parameters.encode("latin-1")
        self.values = self.parts.split(b"X") if self.parts is not None else []

    def is_whole(self) -> bool:
        """Whether it is a definition at all, and not a damaged word."""
        is_known = all(re.fullmatch(DECIMAL, value) for value in self.values)
        return self.number >= LEAST_APERTURE and is_known and len(self.values) >= SIZES.get(self.name, 0)

    def is_taken(self, scale: int) -> bool:
        """Whether `check` takes the definition."""
        if len(self.values) != SIZES.get(self.name):
            return False
        told = [in_u(value, scale) for value in self.values]
        sizes = [size for size in told if size is not None and size % 2 == 0 and 0 <= size <= MOST]
        return len(sizes) == len(told) and min(sizes) <= MOST_WIDE and (self.name == b"C" or min(sizes) > 0)


class Definitions:
    """What a file defines, and what it uses."""

    def __init__(self, edits: Edits) -> None:
        self.edits, self.scale, self.is_plain = edits, 0, True
        self.macros: List[Macro] = []
        self.apertures: List[Aperture] = []
        is_macro = False
        for word in pairs(edits.data):
            is_macro = is_macro and not word.first
            if not is_macro and word.text.startswith(b"AM"):
                is_macro = True
                self.macros.append(Macro(word.text[2:]))
            if is_macro:
                self.macros[-1].words.append((word.start, word.end, word.text))
            else:
                self.extended(word)

    def extended(self, word: Word) -> None:
        text = word.text.decode("latin-1")
        its = definition_of(text)
        if its:
            self.apertures.append(Aperture(word, its))
        elif text in SCALES:
            self.scale = self.scale or SCALES[text]
        elif text.startswith("AB"):
            self.is_plain = False

    def outside(self) -> List[Aperture]:
        """The apertures that `check` does not take, where each number is defined once and no block holds copper."""
        numbers = [it.number for it in self.apertures]
        if not self.is_plain or not self.scale or len(set(numbers)) < len(numbers):
            return []
        return [it for it in self.apertures if it.is_whole() and not it.is_taken(self.scale)]

    def unused(self) -> List[Aperture]:
        """The apertures outside the profile that no draw and no flash has; they and their selections are left out."""
        outside = self.outside()
        if not outside:
            return []
        numbers = Use(self.edits.data).numbers
        gone = [it for it in outside if it.number not in numbers]
        for it in gone:
            self.edits.put(it.start, it.end, NOTHING, UNUSED)
        for word in choosing(self.edits.data, {it.number for it in gone}) if gone else ():
            self.edits.edits[word.start] = word.end, COMMENT
        return gone

    def rewrite(self) -> List[Tuple[Macro, List[Aperture]]]:
        """Unused definitions go, and words of macros that are left are joined. The macros that are left, each with
        its apertures."""
        gone, by_name = set(self.unused()), defaultdict(list)
        left: List[Tuple[Macro, List[Aperture]]] = []
        for it in self.apertures:
            if it not in gone:
                by_name[it.name].append(it)
        for macro in self.macros:
            having = by_name.get(macro.name)
            if having:
                self.join(macro)
                left.append((macro, having))
            else:
                self.leave_out(macro)
        return left

    def leave_out(self, macro: Macro) -> None:
        for start, end, _ in macro.words:
            self.edits.edits[start] = end, NOTHING
        self.edits.note(*macro.words[0][:2], UNUSED)

    def join(self, macro: Macro) -> None:
        """Words over several lines in one; a break elsewhere than beside a comma or at the end, as in a number,
        stays."""
        for at, (start, end, word) in enumerate(macro.words[1:], 1):
            if BLANK.search(word) and not word.startswith(b"0"):
                joined = b",".join(part.strip(BLANKS) for part in word.split(b","))
                if not BLANK.search(joined):
                    self.edits.put(start, end, joined, LINES)
                    macro.words[at] = start, end, joined


class Use(Reading):
    """The numbers of apertures that a draw outside regions or a flash has, also where a word is not known to be
    none."""

    RUNS = PLAIN = True

    def __init__(self, data: bytes) -> None:
        super().__init__()
        self.numbers: Set[Optional[int]] = set()
        self.read(data)

    def extended(self, word: Word) -> None:
        """No draw and no flash."""

    def run(self, run: Run) -> None:
        """Edges of a region."""

    def plain_words(self, plain: Plain) -> None:
        for _, _, code, aperture in plain.words:
            if aperture:
                self.chosen = int(aperture)
            elif code != b"2" and not self.in_region:
                self.numbers.add(self.chosen)

    def operation(self, parts: Parts) -> None:
        if parts[-1] != b"2" and not self.in_region:
            self.numbers.add(self.chosen)

    def other(self, text: bytes) -> None:
        is_like = text[:1] in (b"X", b"Y", b"I", b"J") or text[:1] in (b"D", b"G") and re.search(rb"[XYD]", text)
        if is_like and not self.in_region and not text.endswith(MOVES):
            self.numbers.add(self.chosen)
