"""What the words of a copper file do, in order: the one state machine, for whoever listens.

A listener is a subclass. It overrides what it wants to hear: operations (`draw`, `arc`, `flash`, `move`, and in
regions `contour`, `edge`, `arc_edge`), regions, blocks, steps, and the words that say how. While it is called, `word`
is the word with its bytes, `number` its place among all, and the state is what is in force: mode, aperture, polarity,
attributes, place. Nothing is judged here: what a file may not say has calls of its own, which do nothing.
"""
import re
from enum import IntEnum
from typing import List, NamedTuple, Optional, Tuple

from boardnet_show.geometry.exact import Refused

from . import gerber_attributes
from .gerber_lexer import Broken, Parts, Plain, Run, Token, Word, line_at, tokens
from .units import SCALES

Spot = Tuple[int, int]


class Code(IntEnum):
    """The code of an operation."""

    DRAW = 1
    MOVE = 2
    FLASH = 3


class Mode(IntEnum):
    """The mode of interpolation."""

    STRAIGHT = 1
    CLOCKWISE = 2
    ANTICLOCKWISE = 3


# A name of a module is looked up faster than that of an enum.
DRAW, MOVE, FLASH = Code.DRAW, Code.MOVE, Code.FLASH
STRAIGHT, CLOCKWISE, ANTICLOCKWISE = Mode.STRAIGHT, Mode.CLOCKWISE, Mode.ANTICLOCKWISE
CODES = {b"1": DRAW, b"2": MOVE, b"3": FLASH}
MODES = {b"1": STRAIGHT, b"2": CLOCKWISE, b"3": ANTICLOCKWISE}
MODE_WORDS = {b"G%s%d" % (zero, mode): mode for mode in Mode for zero in (b"0", b"")}
ENDS = (b"M02", b"M2")
MOST_OBJECTS = 400_000
MOST_EDGES = 100_000  # of a contour, in the profile
MOST_WIDE = 5 * 10**8  # u of an aperture's smaller side: 50 mm
LEAST_APERTURE = 10
CENTRE = re.compile(rb"(?:I([+-]?[0-9]+))?(?:J([+-]?[0-9]+))?")
SELECTION = re.compile(rb"(?:G54)?D([0-9]{2,9})")
DEFINITION = re.compile(r"ADD([0-9]{1,9})([^,]+)(?:,(.*))?", re.S)
STEPS = re.compile(r"SRX([0-9]{1,9})Y([0-9]{1,9})I([^J]+)J(.+)")


class Definition(NamedTuple):
    """An aperture's definition: its number, its template and its parameters, None where there is no comma."""

    number: int
    template: str
    parameters: Optional[str]

    def values(self) -> List[str]:
        """Its parameters, each as it stands."""
        return self.parameters.split("X") if self.parameters else []


class Steps(NamedTuple):
    """Step and repeat: how many columns and rows, and the steps as decimals of the file's unit."""

    columns: int
    rows: int
    across: str
    up: str


def definition_of(text: str) -> Optional[Definition]:
    """What a word defines, or nothing."""
    found = DEFINITION.fullmatch(text)
    return Definition(int(found[1]), found[2], found[3]) if found else None


def steps_of(text: str) -> Optional[Steps]:
    """What a word repeats; nothing where it ends that, or has another form."""
    found = STEPS.fullmatch(text)
    return Steps(int(found[1]), int(found[2]), found[3], found[4]) if found else None


class Unread(Refused):
    """A file that is not cut into words."""


class Machine:
    """Goes through the words of a copper file. `RUNS` and `PLAIN` say whether a listener takes many at once, as the
    lexer has them."""

    RUNS = PLAIN = False

    def __init__(self) -> None:
        self.word: Token = Word(0, 0, b"", False, True)
        self.number = 0
        self.mode, self.quadrants = STRAIGHT, ""
        self.code: Optional[Code] = None
        self.spot: Spot = (0, 0)
        self.in_region, self.is_dark, self.depth = False, True, 0
        self.chosen: Optional[int] = None
        self.macro: Optional[str] = None
        self.attributes = gerber_attributes.InForce()

    def read(self, data: bytes) -> None:
        """Walks a whole file."""
        try:
            for token in tokens(data, self.RUNS, self.PLAIN):
                self.word = token
                self.number += 1
                if isinstance(token, Word):
                    if token.parts:
                        self.operation(token.parts)
                    elif token.inside:
                        self.extended(token)
                    else:
                        self.plain(token)
                elif isinstance(token, Run):
                    self.run(token)
                else:
                    self.plain_words(token)
        except Broken as broken:
            self.broken(data, broken)

    def line(self, data: bytes) -> int:
        """The line of the word."""
        return line_at(data, self.word.start)

    # ---- many words at once: each leaves the state and the number of its last word

    def run(self, run: Run) -> None:
        for self.number, (x, y, code) in enumerate(zip(run.xs, run.ys, run.codes), self.number):
            self.operation((None, b"%d" % x, b"%d" % y, b"", b"%d" % code))

    def plain_words(self, plain: Plain) -> None:
        for self.number, (x, y, code, aperture) in enumerate(plain.words, self.number):
            if aperture:
                self.select(int(aperture), b"D" + aperture)
            else:
                self.operation((None, x, y, b"", code))

    # ---- words in pairs of percent signs

    def extended(self, word: Word) -> None:
        """A word in a pair of percent signs; those behind a macro's name are its body."""
        if word.first:
            self.macro = None
        text = word.text.decode("latin-1")
        if self.macro is not None:
            self.macro_word(text)
        else:
            self.setting(text)

    def setting(self, text: str) -> None:
        lead = text[:2]
        if lead in ("TA", "TO", "TD", "TF"):
            self.attribute(text)
        elif lead == "AD":
            self.define(text)
        elif lead == "AM":
            self.macro = text[2:]
            self.begin_macro(text[2:])
        elif text in ("LPC", "LPD"):
            self.polarity(text == "LPD")
        elif text in SCALES:
            self.unit_word(SCALES[text], text)
        elif lead == "FS":
            self.format_word(text)
        elif lead == "SR":
            self.steps(text)
        elif lead == "AB":
            self.block(text)
        elif lead in ("LM", "LR", "LS"):
            self.transform(text)
        else:
            self.other_setting(text)

    # ---- other words

    def plain(self, word: Word) -> None:
        text = word.text
        if text in MODE_WORDS:
            self.mode = MODE_WORDS[text]
            self.mode_word()
        elif text.startswith(b"G04"):
            self.comment(text)
        elif text[:1] in (b"D", b"G") and SELECTION.fullmatch(text) and int(text.split(b"D")[1]) >= LEAST_APERTURE:
            self.select(int(text.split(b"D")[1]), text)
        elif text == b"G36":
            self.region_begins()
        elif text == b"G37":
            self.region_ends()
        elif text in (b"G74", b"G75"):
            self.quadrants = text.decode()
        elif text in (b"G70", b"G71"):
            self.unit_word(SCALES[text.decode()], text.decode())
        elif text in ENDS:
            self.end()
        else:
            self.other(text)

    def operation(self, parts: Parts) -> None:
        mode, x, y, centre, code = parts
        if centre and not CENTRE.fullmatch(centre):
            self.other(self.word.text if isinstance(self.word, Word) else b"")
            return
        if mode:
            self.mode = MODES[mode]
        if not code:
            self.implied()
        now = self.code = CODES[code] if code else self.code
        start = self.spot
        self.spot = self.length(x) if x else start[0], self.length(y) if y else start[1]
        if now is DRAW and self.mode is not STRAIGHT or centre:
            is_arc = now is DRAW and self.mode is not STRAIGHT
            if is_arc and centre:
                (self.arc_edge if self.in_region else self.arc)(start, centre)
                return
            self.mismatched(is_arc)
        if self.in_region:
            (self.contour if now is MOVE else self.flash_in_region if now is FLASH else self.edge)(start)
        elif now is DRAW:
            self.draw(start)
        elif now is FLASH:
            self.flash()
        elif now is MOVE:
            self.move()

    def offset(self, centre: bytes) -> Spot:
        """The two lengths of a centre's words."""
        found = CENTRE.fullmatch(centre)
        i, j = found.groups() if found else (None, None)
        return self.length(i or b"0"), self.length(j or b"0")

    def length(self, digits: bytes) -> int:
        """A coordinate, as the listener counts."""
        return int(digits)

    # ---- what is heard

    def broken(self, data: bytes, broken: Broken) -> None:
        """The file is not cut into words."""
        is_inside = b"*" in data[broken.end :]
        raise Unread(f"a broken word at byte {broken.start}" if is_inside else "a word without an end")

    def attribute(self, text: str) -> None:
        """A word of an attribute; one in a comment comes here too."""
        self.attributes.word(text)

    def comment(self, text: bytes) -> None:
        said = gerber_attributes.said_by(text)
        if said:
            self.attribute(said.decode("latin-1"))

    def define(self, text: str) -> None:
        """The word of an aperture."""

    def begin_macro(self, name: str) -> None:
        """A macro's name; its body follows."""

    def macro_word(self, text: str) -> None:
        """A word of a macro's body."""

    def polarity(self, is_dark: bool) -> None:
        self.is_dark = is_dark

    def unit_word(self, scale: int, text: str) -> None:
        """The unit's u, and the word that says it."""

    def format_word(self, text: str) -> None:
        """The format of coordinates."""

    def steps(self, text: str) -> None:
        """Step and repeat: the word that begins or ends it."""

    def block(self, text: str) -> None:
        """A block's beginning or end."""
        self.depth += 1 if text.startswith("ABD") else -1 if text == "AB" else 0

    def transform(self, text: str) -> None:
        """How apertures are mirrored, turned and sized."""

    def other_setting(self, text: str) -> None:
        """Another word in a pair of percent signs."""

    def mode_word(self) -> None:
        """A word that says the mode alone."""

    def select(self, number: int, text: bytes) -> None:
        """An aperture is chosen."""
        self.chosen = number

    def region_begins(self) -> None:
        self.in_region = True

    def region_ends(self) -> None:
        self.in_region = False

    def end(self) -> None:
        """The file's last word."""

    def other(self, text: bytes) -> None:
        """Another word."""

    def implied(self) -> None:
        """An operation has no code of its own: that of the one before, `code`, goes on."""

    def mismatched(self, is_arc: bool) -> None:
        """An arc without a centre, or a centre without an arc: it goes on as if it were straight."""

    def move(self) -> None:
        """A move outside of regions."""

    def draw(self, start: Spot) -> None:
        """A straight draw from a place."""

    def arc(self, start: Spot, centre: bytes) -> None:
        """A draw along an arc, with the words of its centre."""
        self.draw(start)

    def flash(self) -> None:
        """A flash."""

    def contour(self, start: Spot) -> None:
        """A move in a region, which begins another contour."""

    def edge(self, start: Spot) -> None:
        """A straight edge of a contour."""

    def arc_edge(self, start: Spot, centre: bytes) -> None:
        """An edge along an arc."""
        self.edge(start)

    def flash_in_region(self, start: Spot) -> None:
        """A flash where none may be."""
        self.edge(start)
