"""An IPC-D-356A netlist of a board's copper for a flying-probe tester, in the columns of its records 317 and 327.

A net has the name that the netlist gives it, or the files' own labels, where that is one name and no other net has it,
else NET<n>. The mask code is that of the netlist's records on a pad, where they have one.
"""
import re
from collections import defaultdict
from functools import lru_cache
from typing import Any, Dict, Iterator, List, Optional, Sequence, Set, Tuple

from boardnet_show.base.wording import at_most, with_ends
from boardnet_show.formats import ipc356
from boardnet_show.formats.ipc356 import NO_NET
from boardnet_show.formats.units import UNIT_WORDS
from boardnet_show.geometry.exact import ceil_root
from boardnet_show.geometry.shapes import Shapes

from . import pad_places
from .pad_list import VIA, Padlist, front
from .pad_list import Place as Touched
from .tester_names import Names, in_ascii
from .tooling_holes import Hole, Tooling

Key = Tuple[Any, ...]


# ---- records

UNPLAIN = re.compile("[^!-~]")


def plain(text: str, width: int) -> str:
    return UNPLAIN.sub("?", text)[:width]


def named(part: str, pin: str) -> Tuple[str, str]:
    """A component and a pin as their columns have them."""
    return plain(part, ipc356.COMPONENT_WIDTH), plain(pin, ipc356.PIN_WIDTH)


@lru_cache(maxsize=1_000)
def whole(length: int, unit: int) -> int:
    """A size in four digits: rounded, at least 1 (a height of 0 stands for a round pad), and at most what they hold."""
    return min(ipc356.MOST_SIZE, max(1, (2 * length + unit) // (2 * unit)))


def rounded(length: int, unit: int) -> int:
    """A coordinate in units."""
    return (2 * length + unit) // (2 * unit)


class Row:
    """A record: a place of the board, where it is touched, and the code's columns."""

    def __init__(self, place: Touched, at: pad_places.Place, layers: int) -> None:
        self.place, self.at = place, at
        first, last = place.layers
        is_through = place.hole is not None and (first, last) == (1, layers) and layers > 1
        self.access: int = 0 if is_through else front(place, layers)

    def key(self) -> Key:
        return self.place.hole is not None, self.access, self.at[:2], self.place.part, self.place.pin

    def is_via(self, layers: int) -> bool:
        """Whether it is of a blind or a buried via."""
        first, last = self.place.layers
        is_between: bool = first < last and (first, last) != (1, layers)
        return self.place.hole is not None and is_between

    def lines(self, unit: int, name: str, drill: int, layers: int) -> List[str]:
        """The record, and behind that of a blind or a buried via its span."""
        if not self.is_via(layers):
            return [self.line(unit, name, drill)]
        return [self.line(unit, name, drill, ipc356.VIA), ipc356.span_line(*self.place.layers)]

    def line(self, unit: int, name: str, drill: int, code: bytes = b"") -> str:
        it, has_hole = self.place, self.place.hole is not None
        part, pin = (it.part, it.pin) if it.part else (VIA, "") if it.is_via else ("", "")
        wide, high = (whole(length, unit) for length in it.size)
        code = code or (ipc356.THROUGH if has_hole else ipc356.SURFACE)
        part, pin = named(part, pin)
        return ipc356.record_line(
            ipc356.Written(
                code,
                name,
                part,
                pin,
                self.access,
                self.at.x,
                self.at.y,
                it.is_via and not it.part,
                whole(drill, unit) if has_hole else None,
                ipc356.Size(wide, 0 if it.is_round else high),
                next(iter(it.masks)) if len(it.masks) == 1 else "",
            )
        )

    def off(self, unit: int) -> int:
        """How far it is from the middle of the pad, squared, in u."""
        x, y = self.place.middle
        away: int = (self.at.x * unit - x) ** 2 + (self.at.y * unit - y) ** 2
        return away

    def away(self, unit: int) -> int:
        """The same as a length, rounded up."""
        root: int = ceil_root(self.off(unit))
        return root

    def is_moved(self, unit: int) -> bool:
        """Whether it is farther from the middle than rounding brings it."""
        return 2 * self.off(unit) > unit * unit

    def is_over(self, unit: int, drill: int) -> bool:
        """Whether a size is more than its columns hold."""
        most: int = max(*self.place.size, drill)
        return most > ipc356.MOST_SIZE * unit


def is_middle(place: Touched, shapes: Shapes) -> bool:
    """Whether a place is a round piece that is touched at its middle: there it has copper."""
    piece = place.pieces[0]
    return len(place.pieces) == 1 and shapes.is_spot(piece) and bool(place.aim == shapes.first(piece))


Placed = Tuple[int, List[Optional[pad_places.Place]]]


def on_grid(places: Sequence[Touched], shapes: Shapes) -> Optional[Placed]:
    """A unit of which every aim is a whole number, with the places; most boards have one."""
    for unit in UNIT_WORDS:
        most = pad_places.MOST * unit
        if all(
            x % unit == 0 == y % unit and abs(x) <= most and abs(y) <= most for x, y in (it.aim for it in places)
        ) and all(is_middle(it, shapes) or pad_places.is_copper(pad_of(it, shapes), it.aim) for it in places):
            return unit, [pad_places.Place(it.aim[0] // unit, it.aim[1] // unit, 0) for it in places]
    return None


def pad_of(place: Touched, shapes: Shapes) -> pad_places.Pad:
    return pad_places.Pad(place.aim, [*map(shapes.solid, place.pieces)])


class Netlist:
    """The netlist of a board's pads and holes, and what is to be told of it."""

    def __init__(
        self,
        padlist: Padlist,
        title: str,
        tooling: Optional[Tooling] = None,
        adjacent: Optional[Sequence[Tuple[int, int]]] = None,
    ) -> None:
        """`tooling` are the unplated holes, `adjacent` pairs of nets that are close to each other, or None."""
        self.board, self.title, self.objects = padlist.board, title, padlist.objects
        self.tooling, self.adjacent = tooling or Tooling([], 0, []), adjacent
        shapes, layers = self.board.shapes, self.board.manifest.layers
        self.names = Names(self.board, padlist.objects)
        placed: Placed = on_grid(padlist.places, shapes) or pad_places.settled(
            [pad_of(it, shapes) for it in padlist.places]
        )
        self.unit, found = placed
        self.unplaced = [it for it, at in zip(padlist.places, found) if at is None]
        rows: Dict[Key, Row] = {}
        for row in (Row(it, at, layers) for it, at in zip(padlist.places, found) if at is not None):
            rows.setdefault(row.key(), row)
        of_pins = {(row.access, row.at[:2]) for row in rows.values() if row.place.part}
        self.rows = [
            row
            for row in rows.values()
            if row.place.part or row.place.hole is not None or (row.access, row.at[:2]) not in of_pins
        ]

    def drill(self, place: Touched) -> int:
        """The diameter of a hole; 0 of a pad."""
        return 2 * int(self.board.shapes.radius[place.hole]) if place.hole is not None else 0

    def netlist_text(self, is_plain: bool = False) -> str:
        """The netlist; a plain one has each place once, in records that `check` takes as they are."""
        layers, lines = self.board.manifest.layers, []  # type: int, List[str]
        for row in self.rows:
            lines += self.comments(row)
            name, drill = self.names.field(row.place.net), self.drill(row.place)
            lines += [row.line(self.unit, name, drill)] if is_plain else row.lines(self.unit, name, drill, layers)
        lines += [] if is_plain else [*map(self.tooling_line, self.tooling.holes), *self.adjacent_lines()]
        title = plain(self.title.replace(" ", "_"), 40)
        head = [
            f"C boardnet show: the nets of the copper of {title}",
            f"P  JOB   {title}",
            "P  VER IPC-D-356A",
            ipc356.units_line(self.unit),
        ]
        aliases = [ipc356.alias_line(alias, with_ends(in_ascii(name))) for name, alias in self.names.alias.items()]
        none = [f"C net without a record: {self.names.of[net]} ({self.source_of(net)})" for net in self.without()]
        return ipc356.file_text([*head, *aliases, *lines, *none])

    def source_of(self, net: int) -> str:
        """Where the first piece of a net is from."""
        its = self.board.source(self.board.pieces_of[net][0])
        if not its.number:
            return f"{its.file} as it was rewritten"
        copy = f" copy {its.copy}" if its.copy else ""
        return f"{its.file} {'line' if its.is_line else 'command'} {its.number}{copy}"

    def comments(self, row: Row) -> Iterator[str]:
        """What stands before a record: a pin that its columns do not hold, and how far it is from the middle."""
        it = row.place
        if it.part and named(it.part, it.pin) != (it.part, it.pin):
            yield ipc356.pin_comment(plain(it.part, 60), plain(it.pin, 60))
        if row.is_moved(self.unit):
            yield f"C the next record is {at_most(row.away(self.unit))} mm from the middle of its pad"

    def tooling_line(self, hole: Hole) -> str:
        """The record of an unplated hole."""
        wide, (x, y) = whole(hole.diameter, self.unit), (rounded(it, self.unit) for it in hole.middle)
        return ipc356.record_line(
            ipc356.Written(
                ipc356.TOOLING, NO_NET, "", "", 0, x, y, diameter=wide, size=ipc356.Size(wide, 0), plating="U"
            )
        )

    def adjacent_lines(self) -> Iterator[str]:
        """For each net those that are close to it and behind it in order, where that was asked for."""
        others: Dict[int, Set[int]] = defaultdict(set)
        for one, other in self.adjacent or ():
            others[min(one, other)].add(max(one, other))
        for net in sorted(others):
            yield from ipc356.adjacent_lines(self.names.field(net), list(map(self.names.field, sorted(others[net]))))

    # ---- what is told

    def nets(self) -> Set[int]:
        return {row.place.net for row in self.rows}

    def without(self) -> List[int]:
        """The nets that no record is of."""
        return sorted(set(range(self.board.report.nets)) - self.nets())

    def areas(self) -> int:
        """How many pieces of outer layers that may be pads, on nets that have records, have none: contours without a
        pin, and draws with one."""
        nets, outer = self.nets(), (0, self.board.manifest.layers - 1)
        its = zip(self.objects, self.board.report.sources, self.board.report.net_of)
        return sum(
            it is not None and file in outer and net in nets and it.kind == ("draw" if it.part else "contour")
            for it, (file, *_), net in its
        )
