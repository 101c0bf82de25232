"""Necks: joins of a net that are narrower than a width, told where it is not certain that a disc of that width goes
through.

Where nothing is told, a disc of the width, less a nanometre, can go from each test point of a net to each other one
within copper and barrels: the lower board with its shapes drawn in still joins them. It is certain where even the upper
one does not.
"""
from typing import Any, Dict, Iterator, List, NamedTuple, Sequence, Set

from boardnet_show.base.facts import Neck
from boardnet_show.base.statuses import BadCopper, Stop
from boardnet_show.base.wording import counted, millimetres, spoken
from boardnet_show.findings.besides import NECKS, Requested, found, lacking
from boardnet_show.findings.board import Board
from boardnet_show.findings.finding import NECK, Finding
from boardnet_show.findings.nearest_copper import Gap, NearestCopper
from boardnet_show.findings.notes import NecksCounted, NotKnown
from boardnet_show.formats.ipc356 import NO_NET
from boardnet_show.geometry.exact import Refused
from boardnet_show.geometry.pieces import Piece
from boardnet_show.judging import board_copper
from boardnet_show.judging.judged import Judged

from . import drawn_in
from .cuts import Group
from .looking import bounds_of
from .made_boards import file_text, judged_with
from .point_parts import joined, parts_of

# As much is a shape drawn in less than by half the width: a neck of exactly the width is none.
SLACK = 5
# What is drawn in where joins of no width are asked for: pieces that only touch come apart, and this is certain.
LEAST = 1
FEW = 4


class Copper(NamedTuple):
    """A judged board with its shapes, and the layer of each piece, 0 of barrels."""

    told: Judged
    shapes: Any
    layers: List[int]

    @staticmethod
    def of(program: Any, told: Judged) -> "Copper":
        manifest = told.package.manifest
        layers = [0 if manifest.is_drilled(file) else top for file, _, _, top, _ in told.report.sources]
        return Copper(told, board_copper.shapes_of_judged(program, told), layers)


def half_of(width: int) -> int:
    """How far shapes are drawn in."""
    return max(width // 2 - SLACK, LEAST)


def judged_by_layers(program: Any, copper: Copper, solids: Dict[int, List[Piece]]) -> Judged:
    """The board with other copper on some layers, judged."""
    package, names, files = copper.told.package, list(copper.told.package.manifest.copper), {}
    for layer, its in solids.items():
        names[layer - 1] = package.free_name(f"drawn{layer}", ".gbr")
        files[names[layer - 1]] = file_text(its).encode("ascii")
    return judged_with(program, package, names, files)


def lower(program: Any, copper: Copper, half: int) -> Judged:
    """What is left for certain of a board whose shapes are drawn in."""
    layers = drawn_in.by_layers(copper.layers, range(len(copper.shapes)))
    return judged_by_layers(
        program, copper, {layer: list(drawn_in.lower_layer(copper.shapes, its, half)) for layer, its in layers.items()}
    )


def upper(program: Any, copper: Copper, half: int, nets: Set[int]) -> Judged:
    """All that may be left of some nets of a board; the others stay as they are."""
    net_of = copper.told.report.net_of
    solids: Dict[int, List[Piece]] = {}
    for layer, pieces in drawn_in.by_layers(copper.layers, range(len(copper.shapes))).items():
        its: Dict[int, List[int]] = {}
        for piece in pieces:
            its.setdefault(net_of[piece] if net_of[piece] in nets else -1, []).append(piece)
        if len(its) > 1 or -1 not in its:
            solids[layer] = [copper.shapes.solid(piece) for piece in its.pop(-1, [])]
            for net in sorted(its):
                solids[layer] += drawn_in.upper_layer(copper.shapes, its[net], half)
    return judged_by_layers(program, copper, solids) if solids else copper.told


def groups(designed: Any, drawn: Any) -> Iterator[Group]:
    """Points of a name that the design joins, in parts of the board with its shapes drawn in."""
    for (name, net), points in sorted(joined(designed).items()):
        parts = parts_of(points, drawn)
        bare = frozenset(part[0] for part in parts if drawn.points[part[0]][3] < 0)
        if designed.names[name] != NO_NET and len(points) > 1 and (len(parts) > 1 or bare):
            yield Group(name, net, parts, False, bare)


def nets_of(high: Judged, points: Sequence[int]) -> Set[int]:
    """The nets of some test points."""
    return {high.report.points[point][3] for point in points} - {-1}


class Places:
    """Where parts of a net come nearest on the board with its shapes drawn in."""

    def __init__(self, program: Any, drawn: Judged, board: Board) -> None:
        self.board = Board(
            drawn.package, drawn.report, board.records, board_copper.shapes_of_judged(program, drawn), None, board.ties
        )
        self.copper = NearestCopper(self.board)

    def of(self, group: Group) -> Gap:
        """A neck between its first two parts, or a test point's own place."""
        nets = [self.board.report.points[part[0]][3] for part in group.parts[:2]]
        gap = self.copper.gap(*nets) if len(nets) == 2 and -1 not in nets else None
        point = min(group.bare, default=group.parts[0][0])
        return gap or Gap(0, self.board.spot(point), self.board.layer(point))


def fact_of(board: Board, group: Group, width: int, place: Gap) -> Neck:
    """What is told of a neck."""
    points = board.points_at(part[0] for part in group.parts)
    return Neck(board.name(group.name), points, width, board.copper_at(place.place, place.layer), group.is_certain)


def findings_of(board: Board, its: Sequence[Group], width: int, places: Places) -> List[Finding]:
    told = []
    for number, group in enumerate(its):
        place = places.of(group)
        told.append(
            Finding(
                NECK,
                number,
                board.name(group.name),
                fact_of(board, group, width, place),
                [part[0] for part in group.parts],
                nets=[group.net],
                names=[group.name],
                parts=list(map(list, group.parts)),
                gap=place._replace(distance=0),
                sure=True if group.is_certain else False,
                bare=tuple(sorted(group.bare)),
            )
        )
    return told


def look(program: Any, told: Judged, board: Board, width: int) -> List[Finding]:
    """The necks of a judged board."""
    low, high = bounds_of(told)
    half, copper = half_of(width), Copper.of(program, low)
    drawn = lower(program, copper, half)
    found_here = list(groups(low.report, drawn.report))
    if not found_here:
        return []
    if width:
        above = copper if high is low else Copper.of(program, high)
        nets = nets_of(high, [part[0] for group in found_here for part in group.parts])
        certain = list(groups(high.report, upper(program, above, half, nets).report))
        found_here = [sure_of(group, certain) for group in found_here]
    else:
        found_here = [group._replace(is_certain=high is low) for group in found_here]
    return findings_of(board, found_here, width, Places(program, drawn, board))


def sure_of(group: Group, certain: Sequence[Group]) -> Group:
    """A group with whether the upper board parts its points too, or leaves one without copper."""
    points = {point for part in group.parts for point in part}
    its = [it for it in certain if it.name == group.name]
    parts = [part for it in its for part in it.parts if points & set(part)]
    return group._replace(is_certain=len(parts) > 1 or any(points & it.bare for it in its))


def requested(program: Any, told: Judged, board: Board, width: int) -> Requested:
    """The joins of a judged board that are narrower than a width."""
    program.progress.begin("looking for necks")
    try:
        its = look(program, told, board, width)
    except (Refused, BadCopper, Stop) as why:
        return Requested([lacking(NECKS, NotKnown(NECKS, str(why)))])
    possible = sum(it.sure is False for it in its)
    said = NecksCounted(len(its) - possible, possible, width)
    return Requested([found(NECKS, its, said)], its, kinds=[NECK])
