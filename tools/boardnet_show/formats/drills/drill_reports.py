"""Altium's drill report, `.DRR`: of a drill file the sizes of the tools, how many holes each makes, and whether they
are plated."""
import re
from fractions import Fraction
from typing import Callable, Dict, Iterable, List, NamedTuple, Optional, Tuple

from boardnet_show.formats.units import INCH, MM

from .drill_headers import holes_of
from .drill_lines import Pick, Rout, Tool
from .drill_plating import KIND, Plating, PlatedBy, is_plated

ENDING = ".drr"
# `ASCII File : mini.TXT`, and its tools: `T1  39.37mil (1mm)  Round  2  PTH`.
FILE = re.compile(rb"^[ \t]*(?:ASCII|EIA)\b[^:\r\n]*:[ \t]*([^\r\n]*?)[ \t\r]*$", re.M | re.I)
PARTS = re.compile(rb"^(?=[ \t]*Layer Pair[ \t]*:)", re.M)  # one for each pair of layers
LENGTH = rb"([0-9]*\.?[0-9]+)[ \t]*(mil|mm|inch)"
ROW = re.compile(
    rb"^[ \t]*T([0-9]{1,4})[ \t]+" + LENGTH + rb"(?:[ \t]*\(" + LENGTH + rb"\))?[^\r\n]*?[ \t]([0-9]+)[ \t]+" + KIND,
    re.M | re.I,
)
LENGTHS = {b"mil": INCH // 1000, b"mm": MM, b"inch": INCH}
NEAR = 50_000  # u: 5 micrometres, more than what two roundings of a size differ by


class Row(NamedTuple):
    """A tool: its size as it is written, in u in each unit that is told, how many holes it makes, and whether they are
    plated."""

    tool: int
    size: str
    lengths: Tuple[Fraction, ...]
    holes: int
    plated: bool

    def units(self, size: bytes) -> List[int]:
        """The units in which a size of a drill file is this one."""
        return [
            unit for unit in (INCH, MM) if any(abs(Fraction(size.decode()) * unit - it) <= NEAR for it in self.lengths)
        ]


class Report(NamedTuple):
    """A report on a drill file; `is_whole` where it is on no other, so that each of its tools is one of the file."""

    name: str
    rows: Tuple[Row, ...]
    is_whole: bool

    def plated_by(self) -> PlatedBy:
        return PlatedBy(self.name, {row.tool: row.plated for row in self.rows})


def rows_of(data: bytes) -> Tuple[Row, ...]:
    found = []
    for tool, size, unit, other, other_unit, count, kind in ROW.findall(data):
        its = [(size, unit), *([(other, other_unit)] if other else [])]
        lengths = tuple(Fraction(text.decode()) * LENGTHS[word.lower()] for text, word in its)
        found.append(Row(int(tool), (size + unit).decode(), lengths, int(count), is_plated(kind)))
    return tuple(found)


def beside(name: str, others: Iterable[str], read: Callable[[str], bytes]) -> Optional[Report]:
    """The report on a drill file among `others`, the names of files in its folder, or None."""
    for other in sorted(it for it in others if it.lower().endswith(ENDING)):
        for part in PARTS.split(read(other)):
            files = [file.decode("latin-1").lower() for file in FILE.findall(part)]
            if name.lower() in files and rows_of(part):
                return Report(other, rows_of(part), len(files) == 1)
    return None


class Used(NamedTuple):
    """What a drill file has of a tool: its size, how many holes, and whether it routs."""

    size: bytes = b""
    holes: int = 0
    has_routs: bool = False


def used_by(plating: Plating) -> Dict[int, Used]:
    """The tools of a drill file, by their numbers."""
    found: Dict[int, Used] = {}
    tool = 0
    for line in plating.lines:
        record = line.record()
        tool = record.number if isinstance(record, Pick) else tool
        its = found.get(tool, Used())
        if isinstance(record, Tool) and len(record.sizes()) == 1:
            found[record.number] = found.get(record.number, Used())._replace(size=record.sizes()[0])
        elif isinstance(record, Rout):
            found[tool] = its._replace(has_routs=True)
        elif holes_of(record):
            found[tool] = its._replace(holes=its.holes + holes_of(record))
    return found


def against(report: Report, data: bytes) -> str:
    """Where a report contradicts the drill file that it is about, in words; or nothing."""
    plating, rows = Plating(data), {row.tool: row for row in report.rows}
    used = used_by(plating)
    is_of_plated = {fields[0] for _, fields, _ in plating.functions} == {"Plated"}
    for number, its in sorted(used.items()):
        row = rows.get(number)
        said = True if is_of_plated and plating.tools.get(number) is None else plating.tools.get(number)
        if not (its.holes or its.has_routs):
            continue
        if row is None:
            return f"{report.name} beside it does not name its tool T{number}"
        if its.size and not row.units(its.size):
            return f"{report.name} beside it says that T{number} has a size of {row.size}, and it {its.size.decode()}"
        if its.holes != row.holes and not its.has_routs:
            return f"{report.name} beside it says that T{number} makes {row.holes} holes, and it makes {its.holes}"
        if said is not None and said != row.plated:
            words = {True: "plated", False: "not plated"}
            return f"{report.name} beside it says that T{number} is {words[row.plated]}, and it says {words[said]}"
    plated = [row for row in report.rows if row.plated and row.holes and report.is_whole]
    gone = [row for row in plated if not used.get(row.tool, Used())[1:] > (0, False)]
    return f"{report.name} beside it has T{gone[0].tool}, plated, and it no hole of that" if gone else ""


def unit_of(report: Report, data: bytes) -> Optional[int]:
    """The unit in which the sizes of a drill file are those of a report; None where none or each is."""
    used, rows = used_by(Plating(data)), {row.tool: row for row in report.rows}
    units = {unit for tool, its in used.items() if its.size and tool in rows for unit in rows[tool].units(its.size)}
    return units.pop() if len(units) == 1 else None
