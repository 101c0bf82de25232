"""What holes without plating and the board's edge part, or take from under test points, when the board is made:
findings of two kinds.

The answer stays that on the files as they were designed; what the made board has less is told beside it. Joins and
points of the design that are certain are looked at alone: what is undecided there is told already.
"""
from typing import Dict, FrozenSet, Iterator, List, NamedTuple, Optional, Sequence, Set, Tuple

from boardnet_show.base.facts import PartedWhenMade
from boardnet_show.findings.board import Board
from boardnet_show.findings.finding import CUT, OUTSIDE, Finding
from boardnet_show.findings.nearest_copper import Gap
from boardnet_show.findings.notes import HarmlessHoles
from boardnet_show.formats.ipc356 import NO_NET
from boardnet_show.formats.report import Report
from boardnet_show.judging.judged import Judged

from .made_boards import LOWER, UPPER, Copper, made
from .point_parts import joined, parts_of
from .removals import Removal

# So many things are tried alone, to say which one parts a net.
MOST_TRIED = 24


class Group(NamedTuple):
    """Test points of one name that the copper as designed joins, in parts of the made board, those without copper last
    and under -1."""

    name: int
    net: int
    parts: Tuple[Tuple[int, ...], ...]
    is_certain: bool
    bare: FrozenSet[int]

    def without(self, points: Set[int]) -> Optional["Group"]:
        """The same without some points; None where it says nothing then."""
        parts = tuple(
            its for its in (tuple(point for point in part if point not in points) for part in self.parts) if its
        )
        return self._replace(parts=parts) if len(parts) > 1 or any(part[0] in self.bare for part in parts) else None


def is_whole(parts: Tuple[Tuple[int, ...], ...], report: Report) -> bool:
    return len(parts) == 1 and report.points[parts[0][0]][3] >= 0


def groups(designed: Report, low: Report, high: Report) -> Iterator[Group]:
    """The points that the design joins and the made board does not: not even what it has at most, or not what it has at
    least."""
    for (name, net), points in sorted(joined(designed).items()):
        for report, is_certain in ((high, True), (low, False)):
            parts = parts_of(points, report)
            if not is_whole(parts, report):
                # Points without a net name are none that anything joins.
                bare = frozenset(part[0] for part in parts if report.points[part[0]][3] < 0)
                if designed.names[name] != NO_NET or bare:
                    yield Group(name, net, parts, is_certain, bare)
                break


class MadeBoard:
    """A board as designed, between two judged ones that may be the same, and what is taken away from it."""

    def __init__(self, program, board: Board, low: Judged, high: Judged, removals: Sequence[Removal]) -> None:
        self.board, self.removals = board, removals
        self.low = Copper(program, low, removals)
        self.high = self.low if high is low else Copper(program, high, removals)
        self.lost = [self.low.taken(), self.low.taken() if high is low else self.high.taken()]

    def numbers(self) -> Set[int]:
        """The things that take copper away."""
        return {number for taken in self.lost for its in taken for numbers in its.pieces.values() for number in numbers}

    def side(self, side: int, numbers: Set[int]) -> Report:
        copper = self.high if side == UPPER else self.low
        return made(copper, self.lost[side], numbers, side).report

    def groups(self, numbers: Set[int]) -> List[Group]:
        """What the made board does not join."""
        designed = self.low.told.report
        return list(groups(designed, self.side(LOWER, numbers), self.side(UPPER, numbers)))

    def cutters(self, net: int) -> List[int]:
        """The things that take copper away from a net as designed."""
        net_of = self.low.told.report.net_of
        return sorted(
            {
                number
                for its in self.lost[LOWER]
                for piece, numbers in its.pieces.items()
                if net_of[piece] == net
                for number in numbers
            }
        )

    def alone(self, found: Sequence[Group]) -> Dict[int, Set[Tuple[int, int]]]:
        """For each thing the names and nets that it parts alone, where there are several that could."""
        several = {number for it in found for number in self.cutters(it.net) if len(self.cutters(it.net)) > 1}
        told: Dict[int, Set[Tuple[int, int]]] = {}
        for number in sorted(several)[:MOST_TRIED]:
            designed, high = self.low.told.report, self.side(UPPER, {number})
            told[number] = {(it.name, it.net) for it in groups(designed, high, high)}
        return told


# ---- findings


def finding(board: Board, number: int, group: Group, cutters: Sequence[Removal], sure: Optional[bool]) -> Finding:
    """A net that is parted, or a point that loses its copper."""
    kind = CUT if any(it.hole for it in cutters) else OUTSIDE
    firsts, holes = [part[0] for part in group.parts], tuple(it.hole for it in cutters)
    told = PartedWhenMade(holes, board.name(group.name), board.points_at(firsts), group.is_certain)
    layer = board.layer(firsts[0])
    places = [(*hole.place, layer) for hole in holes if hole] or [(*board.spot(firsts[0]), layer)]
    return Finding(
        kind,
        number,
        board.name(group.name),
        told,
        firsts,
        nets=[group.net],
        names=[group.name],
        parts=list(map(list, group.parts)),
        gap=Gap(0, places[0][:2], layer),
        sure=sure,
        places=tuple(places),
        bare=tuple(sorted(group.bare)),
    )


def cutters_of(board: MadeBoard, group: Group, alone: Dict[int, Set[Tuple[int, int]]]) -> List[Removal]:
    """What parts a net: what does so alone, or else all that takes copper away from it."""
    its = board.cutters(group.net)
    found = [number for number in its if (group.name, group.net) in alone.get(number, ())]
    return [board.removals[number] for number in found or its]


def findings_of(board: MadeBoard, found: Sequence[Group], is_bounded: bool) -> List[Finding]:
    alone, counts = board.alone(found), {CUT: 0, OUTSIDE: 0}
    told = []
    for group in found:
        sure = group.is_certain if is_bounded or not group.is_certain else None
        it = finding(board.board, 0, group, cutters_of(board, group, alone), sure)
        told.append(it._replace(number=counts[it.kind]))
        counts[it.kind] += 1
    return told


def harmless(board: MadeBoard, found: Sequence[Group]) -> List[HarmlessHoles]:
    """A note on holes that take copper away and part nothing."""
    guilty = {number for it in found for number in board.cutters(it.net)}
    holes = [board.removals[number].hole for number in sorted(board.numbers() - guilty)]
    its = [hole for hole in holes if hole]
    return [HarmlessHoles(len(its), its[0])] if its else []
