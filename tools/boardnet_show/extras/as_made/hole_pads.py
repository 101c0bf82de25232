"""Plated holes that are larger than the pad they stand in. A barrel joins, and nothing is cut: it is told as what it
is."""
from typing import Iterator, List, NamedTuple, Tuple

from boardnet_show.bounds.polarity import dark_and_clear
from boardnet_show.bounds.polarity.dark_and_clear import Object
from boardnet_show.findings.board import Board
from boardnet_show.geometry.box_tree import Tree
from boardnet_show.geometry.pieces import Capsule, Piece
from boardnet_show.geometry.segments import point_within

Spot = Tuple[int, int]


class Wide(NamedTuple):
    """A barrel's piece and the layer on which it is larger than its pad."""

    piece: int
    layer: int


def is_round_about(solid: Piece, ends: Tuple[Spot, Spot], radius: int) -> bool:
    """Whether a piece has all of a barrel, where that is seen by its line alone."""
    return bool(
        isinstance(solid, Capsule)
        and solid.radius >= radius
        and all(point_within(spot, solid.start, solid.end, solid.radius - radius) for spot in ends)
    )


def is_larger(barrel: Capsule, pads: List[Piece]) -> bool:
    """Whether a barrel has a place outside of some pieces, for certain."""
    a, b, radius = barrel
    if any(is_round_about(pad, (a, b), radius) for pad in pads):
        return False
    left = dark_and_clear.whole([Object(True, ([barrel],) * 2, 0), *(Object(False, ([pad],) * 2, 0) for pad in pads)])[
        0
    ]
    return bool(left)


def larger_than_pads(board: Board) -> Iterator[Wide]:
    """The barrels that stand in a pad on a layer and reach beyond the copper there."""
    shapes, sources = board.shapes, board.report.sources
    tree = Tree(shapes.all_boxes()) if len(shapes) else None
    for piece, (file, _, _, top, bottom) in enumerate(sources):
        if not tree or not board.manifest.is_drilled(file):
            continue
        barrel, near = shapes.capsule(piece), tree.meeting(shapes.box(piece))
        for layer in range(top, bottom + 1):
            pads = [
                its
                for its in near
                if not board.manifest.is_drilled(sources[its][0])
                and sources[its][3] == layer
                and board.touching.touch(piece, its)
            ]
            if any(board.touching.holds(its, barrel.start) for its in pads) and is_larger(
                barrel, list(map(shapes.solid, pads))
            ):
                yield Wide(piece, layer)
