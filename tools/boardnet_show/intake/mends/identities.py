"""Words of a copper file that change nothing, written as `check` takes them."""
import re

from typing import Optional, cast

from boardnet_show.formats.gerber_lexer import DECIMAL, OPERATION, Parts, Token, Word, has, holding, in_u, pairs
from boardnet_show.formats.gerber_machine import ENDS, MODES, STRAIGHT

from .edits import COMMENT, NOTHING, SIZES, Edits, Reading
from .table import COMMENT_LINES, END, FORMAT, FURTHER_MOVE, IDENTITY, STATE
from .table import STRAIGHT as STRAIGHT_LINE

TAKEN = (b"OFA0B0", b"MIA0B0", b"SFA1B1", b"SFA1.0B1.0", b"IR0")
# Most files have none of these words: the expressions are compiled where one has.
BY_VALUE = rb"(OF|MI|SF)(?:A(" + DECIMAL + rb"))?(?:B(" + DECIMAL + rb"))?|(IR)(" + DECIMAL + rb")"
AS_TAKEN = {b"OF": b"OFA0B0", b"MI": b"MIA0B0", b"SF": b"SFA1B1", b"IR": b"IR0"}
ONCE = rb"SRX0*1Y0*1(?:I[+-]?0*\.?0*)?(?:J[+-]?0*\.?0*)?"
ONCE_TAKEN = rb"SRX0{0,8}1Y0{0,8}1I" + DECIMAL + rb"J" + DECIMAL
LENGTHS = rb"FSLA(?:N[0-9])?(?:G[0-9])?(X[0-9]{2}Y[0-9]{2})(?:N[0-9])?(?:G[0-9])?(?:D[0-9])?(?:M[0-9])?"
PLAIN_FORMAT = len(b"FSLAX46Y46")
NO_DRAWS = (b"2", b"3")
STOPS = (b"M00", b"M0")
# What a look at the words' states is for, beside centres of 0.
SIGNS = (b"G02*", b"G2*", b"G03*", b"G3*", b"G55", b"M00*", b"M0*", b"M01*", b"M1*")
# Coordinates alone behind a move; each expression begins with a text that is searched fast.
COMMENTS = rb"\*[\t\n\r ]*(?:G04[^*%]*\*[\t\n\r ]*)*"
BEHIND_MOVES = tuple(re.compile(move + COMMENTS + rb"[XY][0-9XY+-]*\*") for move in (b"D02", b"D2"))
# What a comment's further lines may not begin with: as where its star is missing.
LIKE_COMMAND = re.compile(rb"[GDMNXYIJ][+-]?[0-9]")
LENGTH = re.compile(rb"[0-9+-]*")


def extended(edits: Edits) -> None:
    """Identities in pairs of percent signs."""
    for start, end, word, *_ in pairs(edits.data):
        lead = word[:2]
        if lead in AS_TAKEN and word not in TAKEN:
            match = re.fullmatch(BY_VALUE, word)
            wanted = 1 if lead == b"SF" else 0
            if match and all(in_u(value, 1) == wanted for value in (match[2], match[3], match[5]) if value):
                edits.put(start, end, AS_TAKEN[lead], IDENTITY)
        elif lead == b"SR" and re.fullmatch(ONCE, word) and not re.fullmatch(ONCE_TAKEN, word):
            edits.put(start, end, b"SRX1Y1I0J0", IDENTITY)
        elif lead == b"FS" and len(word) > PLAIN_FORMAT:
            match = re.fullmatch(LENGTHS, word)
            if match:
                edits.put(start, end, b"FSLA" + match[1], FORMAT)
        elif word == b"ICAS":
            edits.put(start, end, NOTHING, STATE)
        elif lead == b"AD":
            whole = without_holes(word)
            if whole != word:
                edits.put(start, end, whole, IDENTITY)


def without_holes(word: bytes) -> bytes:
    """An aperture's word without a hole of size 0."""
    head, comma, sizes = word.partition(b",")
    parts = sizes.split(b"X")
    if len(parts) == 1:
        return word
    most = SIZES.get(re.sub(rb"ADD[0-9]+", b"", head), len(parts))
    holes = parts[most:]
    if 0 < len(holes) <= 2 and all(re.fullmatch(DECIMAL, part) and in_u(part, 1) == 0 for part in holes):
        return head + comma + b"X".join(parts[:most])
    return word


class States(Reading):
    """Plain words whose state says nothing: a centre of 0 where lines are straight, a mode that no draw has, a stop
    before the end. Coordinates behind a move are one more, where nothing stands between them."""

    def __init__(self, edits: Edits) -> None:
        super().__init__()
        self.edits = edits
        self.waiting: Optional[Token] = None
        self.last: Optional[Word] = None
        self.stop: Optional[Word] = None
        self.has_moved = False
        self.read(edits.data)
        self.let_go()
        if self.last and self.last.text in STOPS:
            edits.put(self.last.start, self.last.end, b"M02", END)

    def extended(self, word: Word) -> None:
        """No state."""

    def plain(self, word: Word) -> None:
        self.last = word
        if word.text and not word.text.startswith(COMMENT):
            self.has_moved = False
            stop, self.stop = self.stop, word if word.text in STOPS else None
            if stop and word.text in ENDS:
                self.edits.put(stop.start, stop.end, COMMENT, STATE)
        super().plain(word)

    def mode_word(self) -> None:
        self.let_go()
        self.waiting = None if self.mode is STRAIGHT else self.word

    def operation(self, parts: Parts) -> None:
        word = self.last = cast(Word, self.word)
        self.stop = None
        mode, x, y, centre, code = parts
        if mode:
            self.let_go()
            self.mode = MODES[mode]
        if code not in NO_DRAWS:
            self.waiting = None
        if centre and self.mode is STRAIGHT and not centre.strip(b"IJ+-0") and (x or y or code):
            self.edits.put(word.start, word.end, word.text.replace(centre, b"", 1), STRAIGHT_LINE)
        is_further = self.has_moved and not (mode or centre or code or self.in_region)
        if is_further:
            self.edits.put(word.start, word.end, word.text + b"D02", FURTHER_MOVE)
        self.has_moved = is_further or code == b"2"

    def other(self, text: bytes) -> None:
        if text.startswith(b"G55"):
            if OPERATION.fullmatch(text[3:]) and text[-1:] == b"3":
                self.edits.put(self.word.start, self.word.end, text[3:], STATE)
        elif text in (b"M01", b"M1"):
            self.edits.put(self.word.start, self.word.end, COMMENT, STATE)
        elif text[:1] in (b"X", b"Y") and b"I" not in text and b"J" not in text:
            self.waiting = None

    def let_go(self) -> None:
        """The last `G02` or `G03` alone, where no draw came behind it."""
        if self.waiting:
            self.edits.put(self.waiting.start, self.waiting.end, COMMENT, STATE)
        self.waiting = None


def has_zero_centre(data: bytes) -> bool:
    """Whether all that follows an I or a J is 0, and a J or an I behind that: faster than an expression, since few
    letters are one."""
    centre = b""
    for part in [*data.replace(b"J", b"I").split(b"I")[1:], b"*"]:
        length = LENGTH.match(part)[0]
        centre += length
        if length != part:
            if b"0" in centre and not centre.strip(b"0+-"):
                return True
            centre = b""
    return False


def plain(edits: Edits) -> None:
    data = edits.data
    if has(data, SIGNS) or has_zero_centre(data) or any(form.search(data) for form in BEHIND_MOVES):
        States(edits)


def comments(edits: Edits) -> None:
    """Comments that are broken over lines, none of which is like a command; those that say attributes stay."""
    for it in holding(edits.data, COMMENT):
        lines = it.text.splitlines()
        if it.inside or len(lines) < 2 or not it.text.startswith(COMMENT) or b"#@!" in it.text:
            continue
        parts = [line.strip() for line in lines]
        if not any(LIKE_COMMAND.match(part) for part in parts[1:]):
            edits.put(it.start, it.end, b" ".join(filter(None, parts)), COMMENT_LINES)
