"""Forms of netlists that `check` does not take and that say what they mean: lines rewritten, each in its place.

What stays as it is `check` refuses by its line.
"""
import re
from functools import lru_cache
from typing import Dict, Iterable, Iterator, List, NamedTuple, Optional, Set, Tuple

from boardnet_show.formats import ipc356

from .mend import Mend, short
from .table import CHARACTERS, CONTINUED, LAYER, METRIC, NAME, NO_POINT, PAPER, VIA

# Codes of the bottom that count no layers of the board: of Eagle and Protel, of Altium, of LibrePCB.
BOTTOMS = (16, 32, 64)
RECORDS = (*ipc356.TEST_RECORDS, ipc356.VIA)
# The layers that a via's continuation says behind its pin, and what else may stand there and says nothing of places.
SPAN = re.compile(rb"(?<![A-Z0-9])L ?(\d\d?)[ -]*L ?(\d\d?)(?!\d)")
HOLE = re.compile(rb" *(M? *D[ \d]{4}[PU]?)? *")
SIZES = re.compile(rb" *(X[ \d]{4})?(Y[ \d]{4})?(R[ \d]{3})? *(S ?\d)?[ \r]*")
SI_UNITS = re.compile(rb"^P[ \t]*UNITS[ \t]+SI", re.M)
SI = re.compile(rb"^(P[ \t]*UNITS[ \t]+)SI([ \t\r]*)$")
BEHIND_PIN = slice(ipc356.PIN.stop, None)
FORM_FEED, END_OF_TEXT, BLANKS = b"\x0c", b"\x1a", b" \t\r"
OUTSIDE = re.compile(rb"[\x80-\xff]")
# Columns that end within a character of UTF-8.
CUT = re.compile(rb".*(?:[\xc2-\xf4]|[\xe0-\xf4][\x80-\xbf]|[\xf0-\xf4][\x80-\xbf]{2})\Z", re.S)
# A name that its columns hold and `check` does not take: with blanks, or letters outside ASCII.
UNPLAIN = re.compile(rb"[!-~\x80-\xff][ !-~\x80-\xff]*")


def blank(text: bytes) -> bytes:
    """An empty line with the end that a line has."""
    return b"\r" if text.endswith(b"\r") else b""


# ---- lines by themselves


def without_paper(text: bytes) -> bytes:
    """A line without form feeds at its ends, which are signs for printers."""
    return text.rstrip(b"\r").strip(FORM_FEED) + blank(text) if FORM_FEED in text else text


def is_end_of_text(text: bytes) -> bool:
    """Whether a line has signs of a text's end alone."""
    return END_OF_TEXT in text and not text.strip(BLANKS + END_OF_TEXT)


def lacks_layer(text: bytes) -> bool:
    """Whether a record is that of a via on no layer that is said."""
    return text[ipc356.CODE] == ipc356.VIA and not text[ipc356.LAYER].strip()


def stands(text: bytes) -> bool:
    """Whether a record has its columns of the layer and of the place."""
    return ipc356.has_coordinates(text) and (ipc356.has_access(text) or lacks_layer(text))


def in_characters(text: bytes) -> Optional[str]:
    """A record whose columns stand where characters are counted, and do not where bytes are, else None."""
    if not OUTSIDE.search(text) or text[ipc356.CODE] not in RECORDS or ipc356.has_access(text) or stands(text):
        return None
    try:
        line = text.decode("utf-8")
    except UnicodeDecodeError:
        return None
    plain = line.encode("ascii", "replace")
    return line if stands(plain) else None


def columns_of(text: bytes) -> Tuple[bytes, bytes]:
    """A record in columns of bytes, and its name as it is written."""
    line = in_characters(text)
    return (text, text[ipc356.NAME]) if line is None else (line.encode("ascii", "replace"), line[ipc356.NAME].encode())


# ---- vias and continuations


class Record(NamedTuple):
    """A test record that further lines may go on from, as it came and as it is written."""

    came: bytes
    written: bytes


def is_same(text: bytes, came: bytes, columns: slice) -> bool:
    """Whether columns of a continuation are blank, or those of its record."""
    return text[columns].strip() in (b"", came[columns].strip())


def of_same_pin(text: bytes, came: bytes) -> bool:
    return is_same(text, came, ipc356.NAME) and is_same(text, came, ipc356.PIN_COLUMNS)


def says_again(text: bytes, came: bytes) -> bool:
    """Whether a continuation says the layer and the place of its record, or nothing."""
    is_known = HOLE.fullmatch(text[BEHIND_PIN.start : ipc356.LAYER.start]) and SIZES.fullmatch(
        text[ipc356.PLACE.stop :]
    )
    return bool(is_known) and of_same_pin(text, came) and is_same(text, came, ipc356.PLACE)


class Spot(NamedTuple):
    """A net at a place, in the netlist's unit."""

    name: str
    x: int
    y: int


def spot_of(text: bytes, name: bytes) -> Optional[Spot]:
    """Where a record has its net; None where its columns have no place."""
    if not ipc356.has_coordinates(text):
        return None
    x, y = (int(text[its][1:2].strip() + text[its][2:].strip()) for its in (ipc356.X, ipc356.Y))
    return Spot(ipc356.text_of(name.strip()), x, y)


def spots_on_layers(lines: Iterable[bytes]) -> Set[Optional[Spot]]:
    """Where the records that say a layer have their nets."""
    its = (columns_of(line) for line in lines if line[ipc356.CODE] in RECORDS)
    return {spot_of(text, name) for text, name in its if ipc356.has_access(text)}


def continued(text: bytes, record: Record) -> Optional[bytes]:
    """The test record that a continuation is, with what it leaves blank by its own record; None where it may be
    another's."""
    came, has_place = record.came, ipc356.has_coordinates(text)
    if not of_same_pin(text, came) or not ipc356.has_access(text) or not ipc356.has_access(came):
        return None
    if not has_place and text[ipc356.X.start :].strip() or not ipc356.has_coordinates(came):
        return None
    code, front = ipc356.CONTINUED[text[ipc356.CODE]], record.written[ipc356.NAME.start : ipc356.PLACE.start]
    return code + front + text[ipc356.LAYER] + (text if has_place else came)[ipc356.X.start :]


def span_of(text: bytes) -> Optional[Tuple[int, int]]:
    """The first and the last layer that a continuation says, or None."""
    found = SPAN.findall(text[BEHIND_PIN].rstrip(b"\r"))
    first, last = map(int, found[0]) if len(found) == 1 else (0, 0)
    return (first, last) if 0 < first < last else None


def via_ends(text: bytes, came: bytes) -> Optional[Tuple[int, int]]:
    """The layer of a via and that of its other end, by a continuation behind it; None where they do not fit."""
    span = span_of(text) if text[ipc356.CODE] in ipc356.CONTINUED else None
    behind = SPAN.sub(lambda found: b" " * len(found[0]), text[BEHIND_PIN])
    if span is None or not says_again(text[: BEHIND_PIN.start] + behind, came):
        return None
    if not ipc356.has_coordinates(came):
        return None
    access = int(came[ipc356.ACCESS]) if ipc356.has_access(came) else 0
    return span if lacks_layer(came) else (access, sum(span) - access) if access in span else None


# ---- names


class Aliases:
    """What stands for names that `check` does not take; a name in UTF-8 and in Latin-1 is one."""

    def __init__(self, data: bytes) -> None:
        self.taken, self.number = set(ipc356.ALIAS.findall(data)), 0
        self.of: Dict[bytes, bytes] = {}

    def alias(self, name: bytes) -> bytes:
        name = ipc356.text_of(name).encode()
        while name not in self.of:
            self.number += 1
            word = b"NNAME%d" % self.number
            if word not in self.taken:
                self.of[name] = word
        return self.of[name]

    def lines(self) -> List[bytes]:
        return [b"P  %s  %s" % (alias, name) for name, alias in self.of.items()]


# ---- a netlist


@lru_cache(maxsize=2)
def may_have_forms(data: bytes) -> bool:
    """Whether any of these forms may be in a netlist, so that most are not read line by line."""
    codes = (ipc356.VIA, *ipc356.CONTINUED, *ipc356.NO_POINTS)
    is_plain = data.isascii() and FORM_FEED not in data and END_OF_TEXT not in data
    has_code = any(b"\n" + code in data or data.startswith(code) for code in codes)
    return not is_plain or has_code or b"SI" in data and SI_UNITS.search(data) is not None


def codes_over(data: bytes, layers: int) -> Tuple[int, ...]:
    """The access codes over the layers of a board; none where records have the code of its last layer, too."""
    its = (*RECORDS, *ipc356.CONTINUED) if may_have_forms(data) else ()
    lines = (line for line in data.split(b"\n") if line[ipc356.CODE] in its and ipc356.has_access(line))
    codes = {int(line[ipc356.ACCESS]) for line in lines} if its else ipc356.fields(data).codes
    return () if layers in codes else tuple(sorted(code for code in codes if code > layers))


class Netlist:
    """A netlist whose lines are rewritten. `last` is the code that is read as the last layer, or 0."""

    def __init__(self, data: bytes, layers: int, last: int = 0) -> None:
        over = codes_over(data, layers)
        self.layers, self.last = layers, last or (over[0] if len(over) == 1 and over[0] in BOTTOMS else 0)
        self.lines, self.aliases = data.split(b"\n"), Aliases(data)
        self.record: Optional[Record] = None
        self.spanned = -1  # the line that the via before it has taken in
        self.told: Dict[Tuple[str, str], List[Tuple[int, bytes]]] = {}
        for at, line in enumerate(self.lines):
            self.replaced(PAPER, at, line, without_paper(line))
        ends = (at for at, line in enumerate(self.lines) if line[ipc356.CODE] == ipc356.END)
        self.end = next(ends, len(self.lines))
        has_gap = any(map(lacks_layer, self.lines[: self.end]))
        self.spots = spots_on_layers(self.lines[: self.end]) if has_gap else set()
        for at in range(self.end):
            self.read(at, self.lines[at])
        # Before the end such a sign would cut the file off.
        for at in filter(lambda at: is_end_of_text(self.lines[at]), range(self.end + 1, len(self.lines))):
            self.replaced(PAPER, at, self.lines[at], blank(self.lines[at]))

    def replaced(self, kind: str, at: int, text: bytes, new: bytes, what: str = "", shown: bytes = b"") -> bytes:
        """Has a line written anew, and notes that where it changes."""
        if new != text:
            self.lines[at] = new
            self.told.setdefault((kind, what), []).append((at + 1, shown or text))
        return new

    def read(self, at: int, text: bytes) -> None:
        """A line before the end."""
        came, (text, name) = text, columns_of(text)
        self.replaced(CHARACTERS, at, came, text)
        code = text[ipc356.CODE]
        if code in ipc356.CONTINUED:
            self.go_on(at, text)
        elif code in RECORDS:
            self.test(at, text, name)
            # Columns of characters are not compared.
            self.record = self.record if text == came else None
        else:
            self.record = None
            self.replaced(METRIC, at, text, SI.sub(rb"\1CUST 1\2", text))
            if code in ipc356.NO_POINTS:
                self.replaced(NO_POINT, at, text, b"C " + text)

    def test(self, at: int, text: bytes, name: bytes) -> None:
        """A test record, or that of a via."""
        new = self.named(at, text, name.strip())
        self.record = Record(text, new)
        if text[ipc356.CODE] == ipc356.VIA:
            self.via(at, text, new, spot_of(text, name))
        else:
            self.on_last(at, new)

    def via(self, at: int, text: bytes, new: bytes, spot: Optional[Spot]) -> None:
        """A via: a point on its layer, and one at its other end where the line behind it says that. Without a layer it
        says nothing more where another record has its net at its place, and else stays."""
        behind = self.lines[at + 1] if at + 1 < self.end else b""
        ends, front = via_ends(behind, text), ipc356.THROUGH + new[ipc356.NAME.start : ipc356.LAYER.start]
        if ends:
            first, second = (front + b"A%02d" % end + new[ipc356.X.start :] for end in ends)
            self.replaced(VIA, at, new, first)
            self.replaced(CONTINUED, at + 1, behind, second, "says the layers of its via: a point at the other end")
            self.spanned = at + 1
        elif not lacks_layer(text):
            self.on_last(at, self.replaced(VIA, at, new, ipc356.THROUGH + new[ipc356.NAME.start :]))
        elif spot and spot in self.spots:
            self.replaced(
                NO_POINT, at, new, b"C " + text, "says no layer, and another record has its net there: left out"
            )

    def named(self, at: int, text: bytes, name: bytes) -> bytes:
        """A record with an alias in place of a name that `check` does not take."""
        # Behind an alias it would not be seen that a name runs on, and may be cut.
        runs_on = not any(text[at : at + 1].strip() == b"" for at in (ipc356.NAME.stop - 1, ipc356.NAME.stop))
        is_unplain = not runs_on and UNPLAIN.fullmatch(name) and (b" " in name or OUTSIDE.search(name))
        is_unplain = is_unplain and not CUT.match(text[ipc356.NAME])
        if not is_unplain or not stands(text) or self.end == len(self.lines):
            return text
        return self.replaced(NAME, at, text, ipc356.with_name(text, self.aliases.alias(name)), shown=name)

    def on_last(self, at: int, text: bytes) -> None:
        """A record whose code is no layer, on the last one."""
        if self.last and ipc356.has_access(text) and int(text[ipc356.ACCESS]) == self.last:
            what = f"is no layer of this board: read as the last, {self.layers:02d}"
            self.replaced(LAYER, at, text, ipc356.with_access(text, self.layers), what, text[ipc356.LAYER])

    def go_on(self, at: int, text: bytes) -> None:
        """A continuation of the record before it."""
        if self.record is None or at == self.spanned:
            return
        new = continued(text, self.record)
        if says_again(text, self.record.came):
            self.replaced(CONTINUED, at, text, b"C " + text, "says what its record says: left out")
        elif new is not None:
            self.on_last(at, self.replaced(CONTINUED, at, text, new))

    def written(self) -> bytes:
        return b"\n".join([*self.lines[: self.end], *self.aliases.lines(), *self.lines[self.end :]])

    def mends(self) -> Iterator[Mend]:
        for (kind, what), rows in self.told.items():
            if rows:
                yield Mend(kind, rows[0][0], short(rows[0][1]), len(rows) - 1, what)


def mended(data: bytes, layers: int, last: int = 0) -> Tuple[bytes, List[Mend]]:
    """A netlist with its lines as `check` takes them, and the mends; the same bytes where there are none. `last` is a
    code that is read as the last layer."""
    if not (
        may_have_forms(data) or any(b" " in name for name in ipc356.fields(data).names) or codes_over(data, layers)
    ):
        return data, []
    netlist = Netlist(data, layers, last)
    found = list(netlist.mends())
    return (netlist.written(), found) if found else (data, [])
