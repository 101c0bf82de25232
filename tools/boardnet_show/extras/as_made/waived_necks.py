"""Necks that somebody has signed for: they are at the waiver's places alone, and no narrower than it says.

A board whose shapes are drawn in by the width that is asked for, but near these places by less than was signed for,
joins the points: so a way between them is as wide as asked elsewhere. Drawn in by the width that was signed for it
joins them too.
"""
from math import ceil, hypot
from typing import Any, Dict, List, Optional, Sequence, Tuple

from boardnet_show.base.statuses import BadCopper, Stop
from boardnet_show.bounds.polarity import dark_and_clear
from boardnet_show.bounds.polarity.dark_and_clear import Object
from boardnet_show.findings.board import Board
from boardnet_show.findings.finding import Finding
from boardnet_show.findings.waivers import MOST_WITHIN, Place, Waiver
from boardnet_show.geometry.exact import Refused
from boardnet_show.geometry.pieces import Capsule, Piece
from boardnet_show.judging.judged import Judged

from . import drawn_in
from .cuts import Group
from .looking import bounds_of
from .necks import Copper, Places, half_of, judged_by_layers
from .point_parts import parts_of

MICROMETRE = 10_000
MARGIN = 10 * MICROMETRE
FEW_PLACES, MOST_PLACES = 8, 200
Disc = Tuple[Place, int]


class Necks:
    """The nets of a judged board by themselves, drawn in by one width and another, with discs."""

    def __init__(self, program: Any, told: Judged, board: Board, width: int) -> None:
        self.program, self.board, self.width = program, board, width
        self.copper = Copper.of(program, bounds_of(told)[0])
        self.drawn: Dict[Tuple[int, int], Dict[int, List[Piece]]] = {}

    def solids(self, net: int, width: int) -> Dict[int, List[Piece]]:
        """What is left of a net on each layer."""
        if (net, width) not in self.drawn:
            its, net_of = self.copper, self.copper.told.report.net_of
            layers = drawn_in.by_layers(its.layers, (piece for piece, of in enumerate(net_of) if of == net))
            self.drawn[net, width] = {
                layer: list(drawn_in.lower_layer(its.shapes, layers.get(layer, ()), half_of(width)))
                for layer in range(1, its.told.package.manifest.layers + 1)
            }
        return self.drawn[net, width]

    def near(self, net: int, width: int, discs: Sequence[Disc]) -> Dict[int, List[Piece]]:
        """Of what is left by another width what lies within discs; by none of the copper as it is. It is wider by some
        micrometres than what is left by that width, so that no join is of next to no width."""
        if width > MARGIN:
            return {
                layer: within(solids, on(discs, layer)) for layer, solids in self.solids(net, width - MARGIN).items()
            }
        its, net_of = self.copper, self.copper.told.report.net_of
        layers = drawn_in.by_layers(its.layers, (piece for piece, of in enumerate(net_of) if of == net))
        # What only touches is parted where it is cut out: a small disc at the place joins it.
        return {
            layer: within([its.shapes.solid(piece) for piece in pieces], on(discs, layer))
            + [Capsule(place[:2], place[:2], MARGIN) for place, _ in on(discs, layer)]
            for layer, pieces in layers.items()
        }

    def judged(self, net: int, width: int, signed: int = 0, discs: Sequence[Disc] = ()) -> Judged:
        near = self.near(net, signed, discs) if discs else {}
        solids = {layer: [*its, *near.get(layer, ())] for layer, its in self.solids(net, width).items()}
        return judged_by_layers(self.program, self.copper, solids)

    def is_joined(self, finding: Finding, width: int, signed: int = 0, discs: Sequence[Disc] = ()) -> bool:
        drawn = self.judged(finding.nets[0], width, signed, discs).report
        parts = parts_of(points_of(finding), drawn)
        return len(parts) == 1 and drawn.points[parts[0][0]][3] >= 0

    def is_of(self, waiver: Waiver, finding: Finding) -> bool:
        """Whether the necks of a finding are those of a waiver, whose names and pins it has."""
        try:
            discs = [(place, waiver.within) for place in waiver.places]
            if waiver.width > self.width or not self.is_joined(finding, self.width, waiver.width, discs):
                return False
            return not waiver.width or self.is_joined(finding, waiver.width)
        except (Refused, BadCopper, Stop):
            return False

    def places(self, finding: Finding, radius: int, signed: int) -> Optional[List[Place]]:
        """Near which places a width joins the points again: where parts come nearest, else along all that is too
        narrow."""
        found: List[Place] = []
        points, net = points_of(finding), finding.nets[0]
        while len(found) <= FEW_PLACES:
            drawn = self.judged(net, self.width, signed, [(place, radius) for place in found])
            parts = parts_of(points, drawn.report)
            bare = frozenset(part[0] for part in parts if drawn.report.points[part[0]][3] < 0)
            if len(parts) == 1 and not bare:
                return found
            gap = Places(self.program, drawn, self.board).of(Group(finding.names[0], net, parts, False, bare))
            place = (round(gap.place[0]), round(gap.place[1]), gap.layer)
            if place in found:
                break
            found.append(place)
        its = self.along(net, radius)
        discs = [(place, radius) for place in its]
        return its if len(its) <= MOST_PLACES and self.is_joined(finding, self.width, signed, discs) else None

    def along(self, net: int, step: int) -> List[Place]:
        """Places in steps along the draws of a net that are too narrow."""
        its, found = self.copper, {}
        for piece, of in enumerate(its.told.report.net_of):
            layer, radius = its.layers[piece], its.shapes.radius[piece]
            if of == net and layer and 0 <= radius <= half_of(self.width):
                (ax, ay), (bx, by), _ = its.shapes.capsule(piece)
                count = max(1, ceil(hypot(bx - ax, by - ay) / step))
                found.update(
                    dict.fromkeys(
                        (ax + (bx - ax) * k // count, ay + (by - ay) * k // count, layer) for k in range(count + 1)
                    )
                )
        return list(found)

    def widest(self, finding: Finding) -> int:
        """The most whole micrometres at which the points are joined, 0 where none are known."""
        low, high = 0, -(-self.width // MICROMETRE)
        while high - low > 1:
            middle = (low + high) // 2
            low, high = (middle, high) if self.is_joined(finding, middle * MICROMETRE) else (low, middle)
        return low * MICROMETRE

    def signed(self, finding: Finding, waiver: Waiver) -> Optional[Waiver]:
        """A waiver with what it says of a neck; None where that cannot be signed for."""
        try:
            width = self.widest(finding)
            for radius in (waiver.within, MOST_WITHIN):
                places = self.places(finding, radius, width)
                if places:
                    return waiver._replace(places=tuple(places), within=radius, width=width)
            return None
        except (Refused, BadCopper, Stop):
            return None


def on(discs: Sequence[Disc], layer: int) -> List[Disc]:
    return [it for it in discs if it[0][2] == layer]


def within(solids: Sequence[Piece], discs: Sequence[Disc]) -> List[Piece]:
    """What of solids lies within discs."""
    round_them = [Capsule(place[:2], place[:2], radius) for place, radius in discs]
    if not round_them or not solids:
        return []
    dark = Object(True, (list(solids),) * 2, 0)
    beyond = [piece for piece, _ in dark_and_clear.cut([dark, Object(False, (round_them,) * 2, 0)], {0}, (1,))[2]]
    if not beyond:
        return list(solids)
    return [piece for piece, _ in dark_and_clear.cut([dark, Object(False, (beyond,) * 2, 0)], {0}, (0,))[1]]


def points_of(finding: Finding) -> List[int]:
    return sorted(point for part in finding.parts for point in part)
