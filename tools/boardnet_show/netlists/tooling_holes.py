"""Unplated holes beside a board's copper, for a tester to hold it by: of tools and of files that say so."""
from typing import List, NamedTuple, Tuple

from boardnet_show.intake import unplated_holes
from boardnet_show.intake.package import Package


class Hole(NamedTuple):
    """A round unplated hole: its middle and its diameter in u."""

    middle: Tuple[int, int]
    diameter: int


class Tooling(NamedTuple):
    """The round unplated holes of a board, how many others there are, and the files that are not read."""

    holes: List[Hole]
    slots: int
    unread: List[str]


def tooling(package: Package) -> Tooling:
    """All unplated holes that a package speaks of."""
    holes: List[Hole] = []
    slots, unread = 0, []
    for its in unplated_holes.of_package(package):
        unread += [] if its.is_read else [its.file]
        round_ones = [piece for piece in range(len(its.shapes)) if its.shapes.is_spot(piece)]
        holes += [Hole(its.shapes.first(piece), 2 * its.shapes.radius[piece]) for piece in round_ones]
        slots += len(its.shapes) - len(round_ones)
    return Tooling(holes, slots, unread)
