"""IPC-D-356A netlists: lines, columns, parameters and test records, read and written. `check` judges what they mean.

The columns are those of the crate `ipc356_records`. A place of a line is what Python counts, from 0: column 4 is 3.
"""
import re
from functools import lru_cache
from typing import Callable, Dict, Iterable, Iterator, List, NamedTuple, Optional, Sequence, Set, Tuple

from .units import CODES, CUSTOM

# ---- columns

CODE, NAME, COMPONENT, PIN, PLATING = slice(0, 3), slice(3, 17), slice(20, 26), slice(27, 31), slice(37, 38)
DIAMETER = slice(32, 37)  # with its letter
PIN_COLUMNS, LAYER, PLACE = slice(20, 31), slice(38, 41), slice(38, 57)  # with dash and letters
ACCESS, X, Y = slice(39, 41), slice(41, 49), slice(49, 57)
MASK_COLUMNS = slice(71, 80)
NAME_WIDTH, COMPONENT_WIDTH, PIN_WIDTH = 14, 6, 4
MOST = 999_999  # what the six digits of a place hold
MOST_SIZE = 9_999  # what the four digits of a size hold
FULL = 72  # columns of a parameter's line whose name may be cut

THROUGH, SURFACE, VIA, TOOLING, ADJACENT, END = b"317", b"327", b"307", b"367", b"379", b"999"
TEST_RECORDS = (THROUGH, SURFACE)
# What goes on behind a record, as which code, and records that name no test point: those that `check` passes over, and
# others.
CONTINUED = {b"017": THROUGH, b"027": SURFACE}
PASSED_OVER = (b"367", b"378", b"379", b"389", b"078", b"079", b"089")
NO_POINTS = (b"390", b"088", b"099")
# The mask code behind a record's sizes: which sides have mask over the pad.
MASK = re.compile(rb" ?S ?([0-3])[ \r]*")
# Where records, their unit and their end stand, in bytes that may be a netlist.
ANY_RECORD = re.compile(rb"^(?:317|327)", re.M)
ANY_UNITS = re.compile(rb"^P[ \t]*UNITS", re.M)
ANY_END = re.compile(rb"^999", re.M)
ANY_PASSED_OVER = re.compile(rb"^(?:%s)" % b"|".join(PASSED_OVER), re.M)
FULL_NAME = re.compile(rb"^3[012]7[!-~]{14}", re.M)
# A parameter that KiCad alone writes, in the first lines.
KICAD, HEAD = b"arrayDim", 400
# A test record's name, what stands behind that, and its access code.
FIELDS = re.compile(rb"^3[12]7(.{14})(.{3})?(?:.{18}A([ \d]\d))?", re.M)
# Columns of a name that are full, or of which a name may go on behind one blank.
LONG_NAME = re.compile(rb".{13}[!-~]|.{12}[!-~] [!-~]", re.S)

# ---- parameters

PARAMETER = re.compile(rb"^P([^\r\n]{0,56})", re.M)
CUSTOM_UNITS = re.compile(rb"^(P[ \t]*UNITS[ \t]+CUST[ \t]+)([01])", re.M)
ALIAS_LINE = re.compile(rb"^P[ \t]*(NNAME[0-9]+)[ \t]+([^\r\n]*)", re.M)
ALIAS = re.compile(rb"NNAME[0-9]+")
# A name that stands in its columns for itself.
PLAIN_NAME = re.compile(r"(?!NNAME)[!-~]{1,14}")
# Pins that are too long for their columns, as comments that we write before a record.
PIN_COMMENT = "C PIN,"
NO_NET = "N/C"
UNPRINTABLE = re.compile("[^ -~]")


class Record(NamedTuple):
    """A 317 or 327 record; x and y in u, None where its columns have no number."""

    line: int
    through: bool
    name: str
    component: str
    pin: str
    x: Optional[int]
    y: Optional[int]


class HoleColumns(NamedTuple):
    """What a record says of its hole: the diameter in the netlist's unit and whether it is plated, None where it is not
    said."""

    diameter: Optional[int]
    plated: Optional[bool]


class Place(NamedTuple):
    """Where a test record is, in the netlist's unit; the access is 0 where its columns are blank."""

    is_through: bool
    access: int
    x: int
    y: int


class AliasLine(NamedTuple):
    """A parameter that says what a name stands for; `is_full` where it fills its line, so that the name may be cut."""

    alias: bytes
    name: bytes
    is_full: bool


# ---- reading


def is_netlist(data: bytes) -> bool:
    """Whether bytes look like a netlist: two of a record, a unit and an end."""
    if ANY_RECORD.search(data):
        return bool(ANY_UNITS.search(data) or ANY_END.search(data))
    return bool(ANY_UNITS.search(data) and ANY_END.search(data))


def is_test(line: bytes) -> bool:
    return line[CODE] in TEST_RECORDS


def printable(field: bytes) -> str:
    return "" if field.isspace() else UNPRINTABLE.sub("?", field.decode("latin-1").strip())


def length(field: bytes, unit: Optional[int]) -> Optional[int]:
    """The coordinate of a letter, a sign and six digits in u, or None."""
    digits = field[2:].lstrip()
    if not digits.isdigit() or unit is None:
        return None
    return int(digits) * unit * (-1 if field[1:2] == b"-" else 1)


def parameters(data: bytes) -> Iterator[List[bytes]]:
    """The words of each parameter, as far as they count."""
    return (match[1].split() for match in PARAMETER.finditer(data))


def unit_of(data: bytes) -> Optional[int]:
    """The unit in u, or None where none is said."""
    said = (words[1:] for words in parameters(data) if words[:1] == [b"UNITS"])
    words: List[bytes] = next(said, [])
    return next((unit for code, unit in CUSTOM.items() if words == [b"CUST", b"%d" % code]), None)


@lru_cache(maxsize=2)
def records(data: bytes) -> Tuple[Record, ...]:
    """The records in order, kept for the netlists that were read last; the k-th is record k + 1 of a report."""
    unit, found, before = unit_of(data), [], b""
    for number, line in enumerate(data.split(b"\n"), 1):
        if line[CODE] == END:
            break
        if is_test(line):
            component, pin = pin_of(line, before)
            name, x, y = printable(line[NAME]) or NO_NET, length(line[X], unit), length(line[Y], unit)
            found.append(Record(number, line[CODE] == THROUGH, name, component, pin, x, y))
        before = line
    return tuple(found)


@lru_cache(maxsize=2)
def masks(data: bytes) -> Tuple[str, ...]:
    """The mask code of each record, or nothing."""
    lines = data.split(b"\n")
    found = (MASK.fullmatch(lines[it.line - 1][MASK_COLUMNS]) for it in records(data))
    return tuple(its[1].decode() if its else "" for its in found)


def pin_of(line: bytes, before: bytes) -> Tuple[str, str]:
    """Component and pin of a record, by its columns or whole by a comment before it."""
    if before.startswith(PIN_COMMENT.encode()):
        fields = before[len(PIN_COMMENT) :].decode("utf-8", "replace").rstrip("\r").split(",")
        if len(fields) == 2:
            return fields[0], fields[1]
    return printable(line[COMPONENT]), printable(line[PIN])


def has_place(line: bytes) -> bool:
    """Whether a line is a test record that has all its columns."""
    return is_test(line) and len(line) >= Y.stop


def has_digits(field: bytes, width: int) -> bool:
    """Whether columns have a number as `check` takes one: blanks, then digits to their end."""
    return len(field) == width and field.lstrip(b" \t").isdigit()


def has_access(line: bytes) -> bool:
    """Whether the columns of the access code have one."""
    return line[LAYER][:1] == b"A" and has_digits(line[ACCESS], 2)


def has_coordinates(line: bytes) -> bool:
    """Whether the columns of both coordinates have a letter, a sign or a blank, and a number."""
    return all(
        line[its][:1] == letter and line[its][1:2] in (b" ", b"\t", b"+", b"-") and has_digits(line[its][2:], 6)
        for its, letter in ((X, b"X"), (Y, b"Y"))
    )


def place_of(line: bytes) -> Place:
    """Where a test record is; ValueError where its columns have no numbers."""
    x, y = (int(line[its][1:].replace(b" ", b"")) for its in (X, Y))
    return Place(line[CODE] == THROUGH, int(line[ACCESS].strip() or b"0"), x, y)


def hole_of(line: bytes) -> HoleColumns:
    """The columns of a record that say of its hole."""
    digits = line[DIAMETER][1:].strip()
    said = line[DIAMETER][:1] == b"D" and digits.isdigit()
    return HoleColumns(int(digits) if said else None, {b"P": True, b"U": False}.get(line[PLATING]))


def places(data: bytes) -> List[Place]:
    """Where the test records are, or none where one is broken."""
    try:
        return [place_of(line) for line in data.splitlines() if has_place(line)]
    except ValueError:
        return []


# ---- names


def name_of(line: bytes) -> bytes:
    """The name in the columns of a test record; nothing where they are blank or end within them."""
    return line[NAME].strip() if is_test(line) and len(line) >= NAME.stop else b""


class Fields(NamedTuple):
    """Of all test records: their names, each once in their order, those that fill their columns or go on behind them,
    with what stands there, and the access codes."""

    names: List[bytes]
    long_names: List[bytes]
    codes: Set[int]


@lru_cache(maxsize=2)
def fields(data: bytes) -> Fields:
    """Read in one pass, kept for the netlists that were read last: a netlist may have many records."""
    rows = dict.fromkeys(FIELDS.findall(data))
    names = [name for name in dict.fromkeys(field.strip() for field, _, _ in rows) if name]
    runs = ((field + behind).rstrip() for field, behind, _ in rows)
    long_names = dict.fromkeys(name for name in runs if LONG_NAME.match(name))
    return Fields(names, list(long_names), {int(code) for _, _, code in rows if code})


def has_other_names(data: bytes) -> bool:
    """Whether its tool may have written names otherwise: KiCad does, in capitals, and a name that fills its columns may
    be cut."""
    return KICAD in data[:HEAD] or FULL_NAME.search(data) is not None


def text_of(name: bytes) -> str:
    """A name in UTF-8, or in Latin-1 where it is none."""
    try:
        return name.decode("utf-8")
    except UnicodeDecodeError:
        return name.decode("latin-1")


def alias_lines(data: bytes) -> Iterator[AliasLine]:
    """What names stand for, in UTF-8."""
    for found in ALIAS_LINE.finditer(data):
        yield AliasLine(found[1], text_of(found[2].strip()).encode(), found.end() - found.start() >= FULL)


def aliases(data: bytes) -> Dict[str, str]:
    """The whole names that a netlist's names stand for."""
    return {it.alias.decode(): it.name.decode().strip() for it in alias_lines(data)}


def spoken(names: Sequence[str], whole: Dict[str, str]) -> List[str]:
    """The names of a report as the whole names that they stand for, as long as all are distinct."""
    taken, told = set(names), []
    for name in names:
        said = whole.get(name) or name
        told.append(name if said in taken else said)
        taken.add(told[-1])
    return told


# ---- changed copies


def changed(data: bytes, change: Callable[[bytes], bytes]) -> bytes:
    """The netlist with each test record that has all its columns as it is changed."""
    return b"".join(change(line) if has_place(line) else line for line in data.splitlines(keepends=True))


def with_name(line: bytes, name: bytes) -> bytes:
    return line[: NAME.start] + name.ljust(NAME_WIDTH) + line[NAME.stop :]


def with_access(line: bytes, layer: int) -> bytes:
    return line[: ACCESS.start] + b"%02d" % layer + line[ACCESS.stop :]


def with_place(line: bytes, x: int, y: int) -> bytes:
    return line[: X.start] + place_columns(x, y).encode() + line[Y.stop :]


def in_other_unit(data: bytes) -> bytes:
    """The netlist with the other of the two units that it may say."""
    return CUSTOM_UNITS.sub(lambda found: found[1] + (b"1" if found[2] == b"0" else b"0"), data, count=1)


# ---- writing


class Size(NamedTuple):
    """A pad's sizes along the axes, in the netlist's unit; a height of 0 is that of a round one."""

    wide: int
    high: int


class Written(NamedTuple):
    """A test record as it is written, lengths in the netlist's unit. The fields fit their columns, but for a component
    and a pin, which are cut."""

    code: bytes
    name: str
    component: str
    pin: str
    access: int
    x: int
    y: int
    is_midpoint: bool = False
    diameter: Optional[int] = None
    size: Optional[Size] = None
    mask: str = ""
    plating: str = "P"


def place_columns(x: int, y: int) -> str:
    return f"X{x:+07d}Y{y:+07d}"


def record_line(record: Written) -> str:
    """A test record in its columns, without an end of line; without a size it ends behind its place."""
    component, pin = record.component[:COMPONENT_WIDTH], record.pin[:PIN_WIDTH]
    named = f"{component:<{COMPONENT_WIDTH}}{'-' if pin else ' '}{pin:<{PIN_WIDTH}}{'M' if record.is_midpoint else ' '}"
    hole = f"{'':6}" if record.diameter is None else f"D{record.diameter:04d}{record.plating}"
    size = f"X{record.size.wide:04d}Y{record.size.high:04d}R000" if record.size else ""
    size += f" S{record.mask}" if record.mask else ""
    place = f"A{record.access:02d}{place_columns(record.x, record.y)}"
    return f"{record.code.decode()}{record.name:<{NAME_WIDTH}}   {named}{hole}{place}{size}"


def span_line(first: int, last: int) -> str:
    """What stands behind the record of a via that spans these layers."""
    return f"027{'':{LAYER.start - CODE.stop}}L{first:02d}L{last:02d}"


def adjacent_lines(name: str, others: Sequence[str]) -> Iterator[str]:
    """That other nets are beside a net: four names in a line."""
    for at in range(0, len(others), 4):
        fields = [name if at == 0 else "", *others[at : at + 4]]
        yield (ADJACENT if at == 0 else b"079").decode() + " ".join(f"{it:<{NAME_WIDTH}}" for it in fields).rstrip()


def pin_comment(component: str, pin: str) -> str:
    """What has a pin whole before its record."""
    return f"{PIN_COMMENT}{component},{pin}"


def units_line(unit: int) -> str:
    return f"P  UNITS CUST {CODES[unit]}"


def alias_line(alias: str, name: str) -> str:
    return f"P  {alias}  {name}"


def file_text(lines: Iterable[str]) -> str:
    """A netlist of these lines, with its end."""
    return "\n".join([*lines, END.decode(), ""])
