"""Files that tools write beside a drill file, which say its unit, digits and zeros: Allegro's nc_param.txt, Eagle's
.dri, Altium's .DRR."""
import re
from typing import Callable, Dict, Iterable, NamedTuple, Optional, Tuple

from boardnet_show.formats.units import INCH, MM

from . import drill_reports
from .drill_lines import Hit, Pick, Tool, lines
from .number_forms import LEADING, NO_ZEROS, TRAILING, UNIT_NAMES, Contradiction, Said

PARAMETERS = "nc_param.txt"
PARAMETER = re.compile(rb"^[ \t]*([A-Z][A-Z_-]*)[ \t]+([^\r\n]*?)[ \t\r]*$", re.M)
OUTPUT_UNITS = {b"ENGLISH": INCH, b"INCHES": INCH, b"METRIC": MM, b"MILLIMETERS": MM, b"MILLIMETER": MM}
FORMAT = re.compile(rb"([0-9])\.([0-9])")
# The zeros that are left out, by SUPPRESS-LEAD-ZEROES and SUPPRESS-TRAIL-ZEROES.
SUPPRESSED = {(b"YES", b"NO"): LEADING, (b"NO", b"YES"): TRAILING, (b"NO", b"NO"): NO_ZEROS}
NEEDED = (b"FORMAT", b"COORDINATES", b"OUTPUT-UNITS", b"SUPPRESS-LEAD-ZEROES", b"SUPPRESS-TRAIL-ZEROES")
HOLESIZE = re.compile(rb"^[ \t]*;[ \t]*(?:T[0-9]{1,4}[ \t]+)?Holesize\b", re.M | re.I)
# `Units : 1/10000 Inch` of a .dri, its tools (` T01   0.0394inch     2`), and the file that it is about.
DRI_UNITS = re.compile(rb"^[ \t]*Units[ \t]*:[ \t]*(?:1/1(0{1,9})|0\.(0{0,8})1)[ \t]*(inch|mm)[ \t\r]*$", re.M | re.I)
DRI_MODE = re.compile(rb"^[ \t]*Data Mode[ \t]*:[ \t]*(\w+)", re.M)
DRI_TOOL = re.compile(
    rb"^[ \t]*T([0-9]{1,4})[ \t]+([0-9]*\.?[0-9]+)[ \t]*(inch|mm)[ \t]+([0-9]+)[ \t\r]*$", re.M | re.I
)
DECIMAL = re.compile(rb"[0-9]*\.?[0-9]+")
DRI_UNIT = {b"inch": INCH, b"mm": MM}


class Companion(NamedTuple):
    """A file beside a drill file, and what it says of its numbers."""

    name: str
    said: Said
    words: str


def parameters(name: str, data: bytes) -> Optional[Companion]:
    """What nc_param.txt says; nothing where it has no FORMAT."""
    rows = list(dict.fromkeys(PARAMETER.findall(data)))
    its: Dict[bytes, bytes] = dict(rows)
    twice = next((key for key in its if key in NEEDED and sum(other == key for other, _ in rows) > 1), None)
    if twice:
        raise Contradiction(f"{name} says {shown(twice)} in two ways")
    digits = FORMAT.fullmatch(its.get(b"FORMAT", b""))
    if not digits:
        return None
    if its.get(b"COORDINATES", b"ABSOLUTE") != b"ABSOLUTE":
        raise Contradiction(f"{name} says COORDINATES {shown(its[b'COORDINATES'])}, and only absolute places are read")
    lead, trail = (its.get(key, b"").upper() for key in (b"SUPPRESS-LEAD-ZEROES", b"SUPPRESS-TRAIL-ZEROES"))
    if (lead, trail) == (b"YES", b"YES"):
        raise Contradiction(f"{name} says that leading and trailing zeros are left out")
    unit = its.get(b"OUTPUT-UNITS", b"").upper()
    said = Said(OUTPUT_UNITS.get(unit), (int(digits[1]), int(digits[2])), SUPPRESSED.get((lead, trail)))
    return Companion(name, said, f"FORMAT {shown(digits[0])}")


def drill_station(name: str, data: bytes, drilled: bytes) -> Optional[Companion]:
    """What a .dri says; nothing where it has no units. Its tools and their holes have to be those of the drill file."""
    found = DRI_UNITS.search(data)
    if not found:
        return None
    mode = DRI_MODE.search(data)
    if mode and mode[1] != b"Absolute":
        raise Contradiction(f"{name} says Data Mode {shown(mode[1])}, and only absolute places are read")
    sizes, used = tools_of(drilled)
    for number, size, _, count in DRI_TOOL.findall(data):
        tool = int(number)
        if float(sizes.get(tool, b"-1")) != float(size) or used.get(tool, 0) != int(count):
            mine = f"{shown(sizes.get(tool, b'none'))} and {used.get(tool, 0)}"
            raise Contradiction(
                f"{name} says that T{tool} has a size of {shown(size)} and {shown(count)} holes, and "
                f"it has {mine}: it is of another board"
            )
    decimals = len(found[1]) if found[1] is not None else len(found[2]) + 1
    said = Said(DRI_UNIT[found[3].lower()], (0, decimals), LEADING)
    return Companion(name, said, " ".join(shown(found[0]).split()))


def drill_report(name: str, drilled: bytes, other: str, read: Callable[[str], bytes]) -> Optional[Companion]:
    """The unit by a .DRR on this drill file, whose sizes are in both; nothing where it has none."""
    report = drill_reports.beside(name, [other], read)
    unit = drill_reports.unit_of(report, drilled) if report else None
    return Companion(other, Said(unit), f"T{report.rows[0].tool} {report.rows[0].size}") if report and unit else None


def tools_of(drilled: bytes) -> Tuple[Dict[int, bytes], Dict[int, int]]:
    """The size of each tool of a drill file as it is written, and how many holes it makes."""
    sizes: Dict[int, bytes] = {}
    used: Dict[int, int] = {}
    tool = 0
    for line in lines(drilled):
        record = line.record()
        if isinstance(record, Tool) and len(record.sizes()) == 1 and DECIMAL.fullmatch(record.sizes()[0]):
            sizes[record.number] = record.sizes()[0]
        elif isinstance(record, Pick):
            tool = record.number
        elif isinstance(record, Hit):
            used[tool] = used.get(tool, 0) + 1
    return sizes, used


def shown(data: bytes) -> str:
    return data.decode("ascii", "replace").strip()


def companion_of(name: str, drilled: bytes, others: Iterable[str], read: Callable[[str], bytes]) -> Optional[Companion]:
    """What the files among `others`, names of files in a drill file's folder, say of what its numbers are; or none. A
    Contradiction where two of them say two things."""
    stem, first = name.rsplit(".", 1)[0].lower(), None
    for other in sorted(others):
        if other.lower() == PARAMETERS and HOLESIZE.search(drilled):
            found = parameters(other, read(other))
        elif other.lower() == stem + ".dri":
            found = drill_station(other, read(other), drilled)
        elif other.lower().endswith(drill_reports.ENDING):
            found = drill_report(name, drilled, other, read)
        else:
            continue
        if found and first:
            its = agreed(first.said, found, f"{first.name} beside it")
            first = first._replace(said=its, words=f"{first.words}, and {found.name} {found.words}")
        first = first or found
    return first


def agreed(said: Said, companion: Companion, who: str = "it") -> Said:
    """What both say together; a Contradiction where they say two things. `who` says the first."""
    its = companion.said

    def differ(what: str, mine: object, theirs: object) -> Contradiction:
        return Contradiction(f"{who} says {what} {mine}, and {companion.name} beside it {theirs}")

    if None not in (said.unit, its.unit) and said.unit != its.unit:
        raise differ("a unit of", UNIT_NAMES[said.unit or MM], UNIT_NAMES[its.unit or MM])
    if (
        said.digits
        and its.digits
        and (said.digits[1] != its.digits[1] or 0 not in (said.digits[0], its.digits[0]) and said.digits != its.digits)
    ):
        raise differ("digits of", "{}.{}".format(*said.digits), "{}.{}".format(*its.digits))
    both = {said.zeros, its.zeros} - {None, NO_ZEROS}
    if len(both) > 1:
        raise differ("that zeros are left out,", said.zeros, its.zeros)
    zeros = next(iter(both), said.zeros or its.zeros)
    digits = said.digits if said.digits and said.digits[0] else its.digits or said.digits
    return Said(said.unit or its.unit, digits, zeros, said.line)
