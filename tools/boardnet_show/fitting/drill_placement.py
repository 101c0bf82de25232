"""Drill files that count from elsewhere than the copper, by votes of holes that lie on centres of pads.

As with netlists, a vote decides what is tried, and what is told is what `check` says of the changed copy.
"""
from fractions import Fraction as Q
from typing import Callable, List, Optional, Tuple

from boardnet_show.formats.drills.drill_lines import BODY, HEADER, Place, Tool, Unit, lines, places_of
from boardnet_show.formats.drills.drill_lines import text_of as line_of
from boardnet_show.formats.drills.drill_places import unit_of as drill_unit
from boardnet_show.formats.units import decimal_millimetres

from . import placement
from .changes import CopperPlaced, DrillsPlaced
from .layer_order import is_near, near_cells
from .placement import FORMS, MANY, SAMPLE, all_flashes, moved, records, text_of, unit_of, vote

STEP = 10_000  # a micrometre: what shifts of holes are rounded to
# The form that takes a form back, by its number.
BACK = (0, 1, 2, 3, 5, 4, 6, 7)

Form = Callable[[Q, Q], Tuple[Q, Q]]


# ---- a drill file, moved


class Moved:
    """A drill file in millimetres with all places through a form and moved by whole u, each coordinate written out."""

    def __init__(self, data: bytes, unit: int, form: Form, by: Tuple[int, int]) -> None:
        self.unit, self.form, self.by = unit, form, by
        self.at: List[Q] = [Q(0), Q(0)]
        raw = data.split(b"\n")
        for line in lines(data):
            record = line.record()
            if line.part == BODY and places_of(record):
                raw[line.number - 1] = line_of(record, [self.moved(place) for place in places_of(record)])
            elif line.part == HEADER and isinstance(record, Tool) and set(dict(record.parameters)) == {b"C"}:
                size = round(Q(record.sizes()[0].decode()) * unit)
                raw[line.number - 1] = record.name + b"C" + decimal_millimetres(size).encode()
            elif line.part == HEADER and isinstance(record, Unit):
                raw[line.number - 1] = b"METRIC" + line.text[len(record.name) :]
        self.data = b"\n".join(raw)

    def moved(self, place: Place) -> Place:
        for axis, number in enumerate(place):
            if number is not None:
                self.at[axis] = Q(number.decode()) * self.unit
        x, y = (decimal_millimetres(round(v) + d).encode() for v, d in zip(self.form(*self.at), self.by))
        return Place(x, y)


def drill_moved(data: bytes, form: Form, by: Tuple[int, int]) -> Optional[bytes]:
    """The file moved; None without a unit."""
    unit = drill_unit(data)
    return None if unit is None else Moved(data, unit, form, by).data


# ---- how holes lie on pads


class Holes:
    """The holes of each drill file and the centres of pads of a package."""

    def __init__(self, package):
        self.package, self.pads = package, all_flashes(package)
        self.of = {name: placement.holes(package, name) for name, _, _ in package.manifest.drills}
        cells = near_cells(self.pads)
        # Files of which at most half of the holes lie on the middle of a pad.
        self.off = [
            name
            for name, holes in self.of.items()
            if holes and self.pads and 2 * sum(is_near(cells, *hole) for hole in holes) <= len(holes)
        ]

    def candidates(self, names):
        """(share of the votes, form, shift in u) that bring most holes of these files onto pads, the likeliest
        first."""
        holes = sorted({hole for name in names for hole in self.of[name]})
        sample, centres, found = holes[:: max(1, len(holes) // SAMPLE)][:SAMPLE], sorted(self.pads), []
        for turn, (_, form) in enumerate(FORMS if len(centres) <= MANY else FORMS[:1]):
            found += [
                (-Q(n, len(sample)), turn > 0, turn, tuple(v * STEP for v in by))
                for n, by in vote(sample, centres, form, STEP)
            ]
        moves = dict.fromkeys((-less, turn, by) for less, _, turn, by in sorted(found))
        return [(share, turn, by) for share, turn, by in moves if (turn, by) != (0, (0, 0))]

    def files(self, names, turn, by):
        """These drill files moved, or None."""
        found = {name: drill_moved(self.package.read(name), FORMS[turn][1], by) for name in names}
        return None if None in found.values() else found


def moved_drills(holes, names):
    """(share of the votes, change, changed files) for drill files that do not lie on the copper's pads."""
    for share, turn, by in holes.candidates(names):
        files = holes.files(names, turn, by)
        if files:
            yield share, DrillsPlaced(tuple(names), len(names) == len(holes.of), turn, by), files


# ---- the copper, moved: where netlist and drills fit each other, both go the other way


def fit_each_other(package, holes):
    """Whether most through points lie on holes."""
    text = text_of(package, package.manifest.netlist)
    unit, through = unit_of(text), [r for r in records(text) if r.is_through]
    cells = near_cells(hole for found in holes.of.values() for hole in found)
    return bool(unit and through) and 2 * sum(is_near(cells, r.x * unit, r.y * unit) for r in through) > len(through)


def moved_copper(package, holes):
    """(share of the votes, change, changed files) for copper that lies elsewhere than netlist and drills."""
    name, names = package.manifest.netlist, list(holes.of)
    text = text_of(package, name)
    unit = unit_of(text)
    for share, turn, by in holes.candidates(names):
        steps = [round(Q(v, unit)) for v in by]
        netlist = moved(text, FORMS[turn][1], steps)
        shift = tuple(v * unit for v in steps)
        files = holes.files(names, turn, shift)
        if netlist is not None and files:
            back = FORMS[BACK[turn]][1](*(-v for v in shift))
            yield share, CopperPlaced(BACK[turn], back), {name: netlist.encode("latin-1"), **files}
