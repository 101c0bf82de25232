"""The words of a copper file with their places in its bytes, as docs/FORMATS.md cuts them. It mirrors the crate
`gerber_words`.

There is one cut, and ways to look at few of its words: all of them (`tokens`), those in pairs of percent signs
(`pairs`), those that have a sign (`holding`). What most files have most comes at once where a reader takes it so:
operations of a region as a `Run`, other plain words as `Plain`.
"""
import re
from itertools import islice
from typing import Dict, Iterable, Iterator, List, NamedTuple, Optional, Sequence, Tuple, Union

# Mode, x, y, centre and code of an operation, each with what stands behind its letter; a centre with its letters.
Parts = Tuple[Optional[bytes], Optional[bytes], Optional[bytes], bytes, Optional[bytes]]

OPERATION_PARTS = (
    rb"(?:G0?([123]))?(?:X([+-]?[0-9]{1,13}))?(?:Y([+-]?[0-9]{1,13}))?((?:[IJ][+-]?[0-9]{1,13})*)" rb"(?:D0?([123]))?"
)
OPERATION = re.compile(OPERATION_PARTS)
# An operation, a percent sign, or a word and its star. It matches everywhere, so that what has no star is looked at
# once.
TOKEN = re.compile(rb"[\t\n\r ]*(?:(" + OPERATION_PARTS + rb")\*|(%)|([^*%]*)(\*?))")
DECIMAL = rb"[+-]?(?:[0-9]+\.?[0-9]*|\.[0-9]+)"
PLACED = re.compile(rb"[\t\n\r ]*X[+-]?[0-9]{1,13}Y[+-]?[0-9]{1,13}D0?[12]\*")
# Words that most files have most: a place with its code, and an aperture.
PLAIN_WORDS = re.compile(
    rb"(?:[\t\n\r ]*(?:(?:X[+-]?[0-9]{1,13})?(?:Y[+-]?[0-9]{1,13})?D0?[123]" rb"|D[1-9][0-9]{1,8})\*){2,500}"
)
PLAIN_WORD = re.compile(rb"(?:(?:X([+-]?[0-9]+))?(?:Y([+-]?[0-9]+))?D0?([123])|D([0-9]+))\*")
NUMBERS = bytes.maketrans(b"XYD*", b"    ")  # words of X, Y and D become their numbers
BLANKS = b"\t\n\r "
FILE_ENDS = (b"M02*", b"M2*")
MOST_DIGITS = 100  # of a decimal
MOST_COORDINATE_DIGITS = 13
FEW = 40  # bytes that are taken word by word
DRAW_CODE, MOVE_CODE = 1, 2
ARC_WORD, QUADRANTS_WORD = re.compile(rb"G0?[23](?![0-9])"), re.compile(rb"G7[45]\*")
NEW = tuple.__new__  # of a named tuple: without a call of Python for each word


class Broken(Exception):
    """A file that is not cut into words: from `start` to `end` is what has no star."""

    def __init__(self, start: int, end: int) -> None:
        super().__init__(start, end)
        self.start, self.end = start, end


class Word(NamedTuple):
    """A word's first byte, its star, its text, whether it is in a pair of percent signs and whether it is the pair's
    first; of an operation its parts."""

    start: int
    end: int
    text: bytes
    inside: bool
    first: bool
    parts: Optional[Parts] = None


class Run(NamedTuple):
    """Operations of a region that all say both coordinates and a code, by their numbers, with the bytes from the
    first to behind the last."""

    start: int
    end: int
    xs: List[int]
    ys: List[int]
    codes: List[int]


class Plain(NamedTuple):
    """Words of coordinates and a code, or of an aperture: (x, y, code, number of an aperture) of each, empty where it
    is not said."""

    start: int
    end: int
    words: List[Tuple[bytes, bytes, bytes, bytes]]


Token = Union[Word, Run, Plain]


def tokens(data: bytes, runs: bool = False, plain: bool = False) -> Iterator[Token]:
    """The words of a file in order. With `runs` words of a region up to a G are one run, where all of them say the
    same; with `plain` words of coordinates and a code, and those that choose an aperture, come together."""
    inside, first, in_region, looked = False, True, False, 0
    start: Optional[int] = 0
    while start is not None:
        matches, start = TOKEN.finditer(data, start), None
        for match in matches:
            text, mode, x, y, centre, code, sign, other, star = match.groups()
            if text is None and not star:
                if sign:
                    inside, first = not inside, True
                elif other:
                    raise Broken(match.start(8), match.end())
                continue
            end = match.end()
            if plain and not inside and (code and not (mode or centre) or other and other[:1] == b"D"):
                many = PLAIN_WORDS.match(data, match.start())
                if many:
                    yield Plain(match.start(), many.end(), PLAIN_WORD.findall(many[0]))
                    first, start = False, many.end()
                    break
            if text is None:
                text = other
                in_region = text == b"G36" or in_region and text != b"G37"
            parts = (mode, x, y, centre, code) if not inside and (x or y or code or centre) else None
            yield NEW(Word, (end - 1 - len(text), end - 1, text, inside, first, parts))
            first = False
            if in_region and runs and not inside and end >= looked:  # what is no run is looked at once
                looked = next_general(data, end)
                run = run_of(data, end, looked) if looked - end > FEW else None
                if run:
                    yield run
                    start = looked
                    break


def next_general(data: bytes, at: int) -> int:
    """Where the next G is, or the end."""
    found = data.find(b"G", at)
    return found if found >= 0 else len(data)


def run_of(data: bytes, start: int, end: int) -> Optional[Run]:
    """The words between two bytes as a run; nothing where there are others."""
    body = data[start:end]
    found = lines_of(body.strip(BLANKS), b"\r\n" if b"\r" in body else b"\n") or placed(body)
    return Run(start, end, *found) if found else None


def placed(body: bytes) -> Optional[Tuple[List[int], List[int], List[int]]]:
    """xs, ys and codes of words that each say these, with codes of a region; nothing where there are others."""
    if PLACED.sub(b"", body).strip(BLANKS):
        return None
    values = [*map(int, body.translate(NUMBERS).split())]
    return (values[::3], values[1::3], values[2::3]) if values else None


def lines_of(data: bytes, ends: bytes) -> Optional[Tuple[List[int], List[int], List[int]]]:
    """The same of lines alone, whose codes have two digits, as nearly all files have them: faster than an expression
    over all of them."""
    many, draw, move = data.count(b"*"), b"D01*" + ends + b"X", b"D02*" + ends + b"X"
    if (
        data.translate(None, b"-0123456789") + ends != (b"XYD*" + ends) * many
        or data.count(draw) + data.count(move) != many - 1
    ):
        return None
    parts = data[1 : -len(b"D01*")].replace(draw, b" ").replace(move, b" ").replace(b"Y", b" ").split()
    if (
        data[-len(b"D01*") :] not in (b"D01*", b"D02*")
        or len(parts) != 2 * many
        or max(map(len, parts)) > MOST_COORDINATE_DIGITS
    ):
        return None
    try:
        values = [*map(int, parts)]
    except ValueError:
        return None
    return values[::2], values[1::2], codes_of(data, many)


def codes_of(data: bytes, many: int) -> List[int]:
    """The codes of lines, most of which draw."""
    codes, at, count = [DRAW_CODE] * many, 0, 0
    while True:
        found = data.find(b"D02*", at)
        if found < 0:
            return codes
        count += data.count(b"*", at, found)
        codes[count], at = MOVE_CODE, found + 1


def line_at(data: bytes, at: int) -> int:
    """The line of a byte; the first is 1."""
    return data.count(b"\n", 0, at) + 1


def line_numbers(data: bytes, commands: Iterable[int]) -> Dict[int, int]:
    """The lines of some words of a file by their numbers, in order; what is not cut into words has no number."""
    found: Dict[int, int] = {}
    number, wanted = 0, set(commands)
    for match in TOKEN.finditer(data) if wanted else ():
        is_word = match[1] is not None or bool(match[9])
        number += is_word
        if is_word and number in wanted:
            found[number] = line_at(data, match.start(8) if match[1] is None else match.start(1))
    return found


def nth_word(data: bytes, number: int) -> Optional[Word]:
    """A word by its number, from 1; nothing where there is none, or the file is not cut into words before it."""
    try:
        return next((word for word in islice(tokens(data), number - 1, None) if isinstance(word, Word)), None)
    except Broken:
        return None


# ---- some of the words


def pairs(data: bytes) -> Iterator[Word]:
    """Each word in a pair of percent signs: what stands between pairs is not looked at."""
    at = 0
    while True:
        at = data.find(b"%", at) + 1
        end = data.find(b"%", at)
        if not at or end < 0:
            return
        first = True
        while at < end:
            star = data.find(b"*", at, end)
            if star < 0:
                break
            text = data[at:star].lstrip(BLANKS)
            yield Word(star - len(text), star, text, True, first)
            first, at = False, star + 1
        at = end + 1


def is_at_word(data: bytes, at: int) -> bool:
    """Whether a word may begin at a byte: nothing but blanks is between it and a star, a percent sign or the
    beginning."""
    return data[max(data.rfind(b"*", 0, at), data.rfind(b"%", 0, at)) + 1 : at].strip(BLANKS) == b""


def last(data: bytes) -> int:
    """Where the words end: behind the first that ends the file, or before a percent sign that breaks one."""
    at = 0
    for part in data.split(b"%")[:-1]:
        at += len(part)
        if part.rstrip(BLANKS)[-1:] not in (b"", b"*"):
            break
        at += 1
    else:
        at = len(data)
    for sign in FILE_ENDS:
        end = data.find(sign, 0, at)
        while end >= 0 and not (is_at_word(data, end) and data.count(b"%", 0, end) % 2 == 0):
            end = data.find(sign, end + 1, at)
        at = end + len(sign) if end >= 0 else at
    return at


def holding(data: bytes, sign: bytes) -> Iterator[Word]:
    """The words that have a sign in them, in order: what else the file has is not looked at, so that it is fast.
    Words of a macro's body are none, and what comes behind the file's end."""
    past, inside, is_macro, at = 0, False, False, data.find(sign)
    most = last(data) if at >= 0 else 0
    while 0 <= at < most:
        percent = data.rfind(b"%", past, at)
        if percent >= 0:
            inside ^= data.count(b"%", past, percent + 1) % 2 == 1
            past, is_macro = percent + 1, False
        start = max(data.rfind(b"*", past, at) + 1, past)
        before = data[past:start].split(b"*") if inside else []
        is_macro = is_macro or any(word.lstrip(BLANKS).startswith(b"AM") for word in before)
        past = data.find(b"*", at)
        if not 0 <= past < most:
            return
        text = data[start:past].lstrip(BLANKS)
        if not (inside and is_macro):
            yield Word(past - len(text), past, text, inside, not before)
        is_macro, past = is_macro or inside and text.startswith(b"AM"), past + 1
        at = data.find(sign, past)


def choosing(data: bytes, numbers: Iterable[int]) -> Iterator[Word]:
    """The words that choose one of some apertures."""
    wanted = b"|".join(b"%d" % number for number in sorted(numbers))
    sign = re.compile(rb"(?:G54)?D0*(?:" + wanted + rb")\*")
    inside, past = False, 0
    for match in sign.finditer(data):
        inside ^= data.count(b"%", past, match.start()) % 2 == 1
        past = match.start()
        if not inside and is_at_word(data, past):
            yield Word(past, match.end() - 1, match[0][:-1], False, True)


def begins(data: bytes, sign: bytes) -> bool:
    """Whether a word in a pair of percent signs begins with a sign."""
    return any(it.inside and it.text.startswith(sign) for it in holding(data, sign))


def has(data: bytes, signs: Sequence[bytes]) -> bool:
    """Whether one of these stands in the data: faster than an expression over all of it, since few letters but those
    of coordinates come."""
    for letter in {sign[:1] for sign in signs}:
        behind = tuple(sign[1:] for sign in signs if sign[:1] == letter)
        most = max(map(len, behind))
        if letter in data and any(head.startswith(behind) for head in {part[:most] for part in data.split(letter)[1:]}):
            return True
    return False


def may_lack_quadrants(data: bytes) -> bool:
    """Whether an arc may come before a word that says of which quadrants arcs are."""
    arc, said = ARC_WORD.search(data), QUADRANTS_WORD.search(data)
    return arc is not None and (said is None or arc.start() < said.start())


# ---- numbers


def in_u(decimal: bytes, scale: int) -> Optional[int]:
    """A decimal times a scale, None where that is no whole number, or of more digits than any length has."""
    whole, _, part = decimal.lstrip(b"+-").partition(b".")
    part = part.rstrip(b"0")
    digits = whole.lstrip(b"0") + part
    if len(digits) > MOST_DIGITS:
        return None
    u, rest = divmod(int(digits or b"0") * scale, int(10 ** len(part)))
    return None if rest else -u if decimal.startswith(b"-") else u
