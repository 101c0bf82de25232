"""What findings are told about: the report, the files that it speaks of, the netlist's records, and the copper where
it is known."""
from collections import defaultdict
from functools import cached_property
from typing import TYPE_CHECKING, Any, Dict, Iterable, List, Optional, Sequence, Tuple

from boardnet_show.base.facts import CopperAt, NamedPoint, Pin, PointAt, Source
from boardnet_show.formats.report import Report
from boardnet_show.intake.package import Package
from boardnet_show.judging.net_ties import Ties

if TYPE_CHECKING:  # most boards have no copper looked at
    from boardnet_show.geometry.shapes import Shapes

Spot = Tuple[int, int]


def touching(shapes: "Shapes", report: Report) -> Any:
    # a board that agrees wants none of it, and loading takes longer than a small board
    from boardnet_show.geometry.touching import Touching

    return Touching(shapes, [source[3:] for source in report.sources])


class Board:
    """`shapes` is None where the copper is not known, `labels` (names of pieces by the files' own labels) where
    there are none."""

    def __init__(
        self,
        package: Package,
        report: Report,
        records: Sequence[Any],
        shapes: "Optional[Shapes]",
        labels: Optional[Dict[int, str]],
        ties: Optional[Ties],
    ) -> None:
        self.package, self.manifest, self.report = package, package.manifest, report
        self.records, self.labels, self.ties = records, labels or {}, ties or Ties()
        # Of any type: who asks for copper knows whether there is some.
        self.shapes: Any = shapes
        self.touching: Any = touching(shapes, report) if shapes is not None else None

    @cached_property
    def pieces_of(self) -> Dict[int, List[int]]:
        """The pieces of each net."""
        found: Dict[int, List[int]] = defaultdict(list)
        for piece, net in enumerate(self.report.net_of):
            found[net].append(piece)
        return found

    @cached_property
    def points_of(self) -> Dict[int, List[int]]:
        """The test points of each net, those without copper under -1."""
        found: Dict[int, List[int]] = defaultdict(list)
        for point, (*_, net) in enumerate(self.report.points):
            found[net].append(point)
        return found

    # ---- names

    def name(self, number: int) -> str:
        return self.report.names[number]

    def name_of(self, point: int) -> int:
        return self.report.points[point][2]

    def side_of(self, number: int) -> str:
        """What a name counts as where names meet: tied names are one."""
        return self.ties.side(self.name(number))

    # ---- points

    def record(self, point: int) -> Any:
        number = self.report.points[point][0]
        return self.records[number - 1] if number <= len(self.records) else None

    def pin(self, point: int) -> Pin:
        """A point by component and pin, or by its record."""
        record, number = self.record(point), self.report.points[point][0]
        if not record or not record.component:
            return Pin(record=number)
        if record.component == "VIA":
            return Pin(record=number, is_via=True)
        return Pin(record.component, record.pin)

    def spot(self, point: int) -> Spot:
        """Where a point lies, in u."""
        return self.report.spots[point]

    def layer(self, point: int) -> int:
        return self.report.points[point][1]

    def line(self, point: int) -> int:
        """The line of the netlist that a point is from."""
        record = self.record(point)
        return self.came_line(self.manifest.netlist, record.line) if record else 0

    def came_line(self, name: str, line: int) -> int:
        """The line of the file that came by that of its copy; 0 where it is not known."""
        lines = self.package.lines.get(name)
        return line if lines is None else lines[line - 1] if line <= len(lines) else 0

    def point_at(self, point: int) -> PointAt:
        """A point with its layer and place."""
        return PointAt(self.pin(point), self.manifest.layer_word(self.layer(point)), self.spot(point))

    def points_at(self, points: Iterable[int]) -> Tuple[PointAt, ...]:
        return tuple(map(self.point_at, points))

    def named_point(self, point: int) -> NamedPoint:
        return NamedPoint(self.name(self.name_of(point)), self.point_at(point))

    # ---- places and pieces

    def copper_at(self, spot: Sequence[float], layer: int) -> CopperAt:
        """A place of the copper, rounded to a micrometre: it is where to look."""
        x, y = (round(v, -4) for v in spot)
        return CopperAt(self.manifest.layer_word(layer), self.manifest.copper[layer - 1], (x, y))

    @cached_property
    def came_places(self) -> Any:
        from .came_places import CamePlaces  # boards that agree want none, and loading takes longer than a small board

        return CamePlaces(self)

    def came(self, piece: int) -> Optional[Tuple[int, int]]:
        """The command or line of the file that came, and its copy, that made a piece; None where that is not known."""
        is_as_it_came = not (self.package.mends or self.package.flattened or self.package.lines)
        source: Optional[Tuple[int, int]] = (
            self.report.sources[piece][1:3] if is_as_it_came else self.came_places.of(piece)
        )
        return source

    def source(self, piece: int) -> Source:
        """Which command or line of which file made a piece; the file alone where no more is known."""
        file = self.report.sources[piece][0]
        number, copy = self.came(piece) or (0, 0)
        return Source(self.manifest.files[file], number, self.manifest.is_drilled(file), copy)

    def common_layer(self, p: int, q: int) -> int:
        """The first layer that two pieces share."""
        return max(self.report.sources[p][3], self.report.sources[q][3])
