"""How many decimals a drill file without points may mean, by holes that lie on through points of the netlist."""
from typing import List, NamedTuple

from boardnet_show.formats.drills.drill_lines import BODY, HEADER, Unit, lines, numbers, with_numbers
from boardnet_show.formats.drills.drill_places import places

from .changes import DecimalsRead, DigitsRead
from .layer_order import is_near, near_cells
from .placement import records, text_of, unit_of

DECIMALS = range(2, 6)
MOST = 8  # readings that are tried


class Reading(NamedTuple):
    """Numbers get a point before their last `decimals` digits, filled up with zeros behind to `width` digits, where
    it is not 0."""

    decimals: int
    width: int


def bare_numbers(data: bytes) -> List[bytes]:
    """The numbers of the body without a point, as they are written."""
    its = (number for line in lines(data) if line.part == BODY for number in numbers(line.record()))
    return [number for number in its if b"." not in number]


def readings(data: bytes) -> List[Reading]:
    """All that may be meant: with leading zeros left out, or with trailing ones where the numbers are not equally
    long."""
    found = [Reading(d, 0) for d in DECIMALS]
    lengths = {len(number.lstrip(b"+-")) for number in bare_numbers(data)}
    if len(lengths) > 1:
        width = max(lengths)
        found += [Reading(width - n, width) for n in range(1, width - 1)]
    return found


def with_point(data: bytes, reading: Reading) -> bytes:
    """The file with points, and its unit line without a word on zeros."""

    def pointed(number: bytes) -> bytes:
        if b"." in number:
            return number
        digits = number.lstrip(b"+-")
        sign = number[: len(number) - len(digits)]
        digits = digits.ljust(reading.width, b"0") if reading.width else digits.rjust(reading.decimals + 1, b"0")
        return sign + digits[: -reading.decimals] + b"." + digits[-reading.decimals :]

    raw = data.split(b"\n")
    for line in lines(data):
        record = line.record()
        if line.part == BODY and numbers(record):
            raw[line.number - 1] = with_numbers(record, pointed)
        elif line.part == HEADER and isinstance(record, Unit):
            raw[line.number - 1] = record.name
    return b"\n".join(raw)


class Fit(NamedTuple):
    """A file by a reading: how many of its holes lie on a through point."""

    name: str
    reading: Reading
    data: bytes
    on: int
    holes: int


def fits(name, data, cells):
    """The readings of a file that bring most holes onto through points, and all that bring more than half; all where
    none brings one."""
    found = []
    for reading in readings(data):
        changed = with_point(data, reading)
        holes = list(places(changed))
        found.append(Fit(name, reading, changed, sum(is_near(cells, x, y) for x, y in holes), len(holes)))
    most = max(fit.on for fit in found)
    return [fit for fit in found if fit.on == most or 2 * fit.on > fit.holes]


def combined(by_file):
    """One reading for each file: the same one for all where that fits, else each file's own."""
    forms = [{(fit.reading.decimals, fit.reading.width > 0): fit for fit in its} for its in by_file]
    same = [tuple(its[form] for its in forms) for form in forms[0] if all(form in its for its in forms)]
    return sorted(same, key=lambda fit_all: -sum(fit.on for fit in fit_all))[:MOST] or likeliest(by_file)


def likeliest(by_file):
    """The first of all combinations as they would be sorted: what begins one of these is among the first of all
    beginnings."""
    best = [(0, (), ())]
    for its in by_file:
        longer = [
            (off - fit.on, (*before, place), (*chosen, fit))
            for off, before, chosen in best
            for place, fit in enumerate(its)
        ]
        best = sorted(longer, key=lambda row: row[:2])[:MOST]
    return [chosen for _, _, chosen in best]


def implied(package):
    """(change, changed files, holes on through points) for all readings that fit."""
    netlist = text_of(package, package.manifest.netlist)
    unit = unit_of(netlist)
    files = {name: package.read(name) for name, _, _ in package.manifest.drills}
    bare = {name: data for name, data in files.items() if bare_numbers(data)}
    if not bare or unit is None:
        return
    cells = near_cells((r.x * unit, r.y * unit) for r in records(netlist) if r.access == 0)
    for fit_all in combined([fits(name, data, cells) for name, data in bare.items()]):
        its = (DigitsRead(it.name, it.reading.decimals, it.reading.width, it.on, it.holes) for it in fit_all)
        yield DecimalsRead(tuple(its)), {it.name: it.data for it in fit_all}, sum(it.on for it in fit_all)
