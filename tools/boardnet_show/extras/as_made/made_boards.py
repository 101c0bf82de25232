"""Judged boards once more with copper taken away: LOWER lies in the copper that is left, UPPER holds it.

Pieces that nothing taken away comes near stay as they are. Of a board between two bounds LOWER is made of the lower
one, and UPPER of the upper one.
"""
from collections import defaultdict
from itertools import chain
from typing import Dict, Iterable, List, NamedTuple, Sequence, Set

from boardnet_show.bounds.files.bound_writer import Side
from boardnet_show.bounds.polarity import dark_and_clear
from boardnet_show.bounds.polarity.dark_and_clear import Object
from boardnet_show.geometry.box_tree import Tree
from boardnet_show.geometry.exact import Refused
from boardnet_show.geometry.pieces import Area, Piece
from boardnet_show.geometry.segments import Bands, box_of_line, edges
from boardnet_show.geometry.shapes import Shapes
from boardnet_show.geometry.touching import Touching
from boardnet_show.intake.package import Package, beside
from boardnet_show.judging import board_copper, judged
from boardnet_show.judging.judged import Judged
from boardnet_show.judging.program import Program

from .removals import Removal

LOWER, UPPER = 0, 1
HEAD = "%FSLAX47Y47*%\n%MOMM*%\n"
SHIFT = 21  # as Bands wants places


class Taken(NamedTuple):
    """Which pieces of a layer lose copper to which of the things that take it away, by their numbers."""

    layer: int
    pieces: Dict[int, Set[int]]


class Copper:
    """A judged board with the shapes of its pieces, and behind them those of what is taken away."""

    def __init__(self, program: Program, told: Judged, removals: Sequence[Removal]) -> None:
        self.program, self.told, self.removals = program, told, removals
        its = board_copper.shapes_of_judged(program, told)
        self.count, self.shapes = len(its), its
        self.tree = Tree(its.all_boxes())
        self.parts: List[List[int]] = []
        both, spans = Shapes(), [source[3:] for source in told.report.sources]
        both.take(its, 0, self.count)
        for removal in removals:
            first = len(both)
            add_pieces(both, removal.clear.both[1])
            self.parts.append(list(range(first, len(both))))
            spans += [(1, told.package.manifest.layers)] * (len(both) - first)
        self.touching = Touching(both, spans)

    def layer(self, piece: int) -> int:
        """The layer of a piece of a copper file, 0 of a barrel."""
        file, _, _, top, _ = self.told.report.sources[piece]
        return 0 if self.told.package.manifest.is_drilled(file) else int(top)

    def met(self, number: int) -> List[int]:
        """The pieces of copper files from which something may be taken away."""
        found: Set[int] = set()
        for part in self.parts[number] if self.count else ():
            near = set(self.near(number, part))
            found.update(piece for piece in near if self.layer(piece) and self.touching.touch(piece, part))
            if self.removals[number].box is None:
                found.update(piece for piece in self.within(part) if piece not in near and self.layer(piece))
        return sorted(found)

    def near(self, number: int, part: int) -> Iterable[int]:
        """The pieces whose boxes meet it, or one of its edges where it is everywhere."""
        box = self.removals[number].box
        if box is not None:
            return self.tree.meeting(box)
        return chain.from_iterable(
            self.tree.meeting(box_of_line(a, b, 0)) for a, b in edges(self.touching.shapes.places(part))
        )

    def within(self, part: int) -> Iterable[int]:
        """The pieces whose first places lie inside an area."""
        bands = Bands(self.touching.shapes.places(part))
        for piece in range(self.count):
            x, y = self.shapes.first(piece)
            if bands.odd(x << SHIFT, y << SHIFT):
                yield piece

    def taken(self) -> List[Taken]:
        """What each layer loses, of those that lose something."""
        layers: Dict[int, Dict[int, Set[int]]] = defaultdict(lambda: defaultdict(set))
        for number in range(len(self.removals)):
            for piece in self.met(number):
                layers[self.layer(piece)][piece].add(number)
        return [Taken(layer, dict(pieces)) for layer, pieces in sorted(layers.items())]


def add_pieces(shapes: Shapes, pieces: Iterable[Piece]) -> None:
    for piece in pieces:
        if isinstance(piece, Area):
            shapes.add_area(*map(list, zip(*piece.corners)))
        else:
            shapes.add(piece.radius, [piece.start] if piece.start == piece.end else [piece.start, piece.end])


def file_text(pieces: Iterable[Piece]) -> str:
    """A copper file of some pieces."""
    out = Side()
    out.pieces(pieces, (0, 0), 0)
    return HEAD + out.file_text() + "M02*\n"


def without(taken: Taken, numbers: Set[int]) -> Dict[int, Set[int]]:
    """The pieces of a layer that lose copper to some of the things alone."""
    return {piece: its & numbers for piece, its in taken.pieces.items() if its & numbers}


def layer_text(copper: Copper, layer: int, pieces: Dict[int, Set[int]], side: int) -> str:
    """A layer's copper file with copper taken away: the pieces that lose none, and what is left of the others."""
    objects = [Object(True, ([copper.shapes.solid(piece)],) * 2, piece) for piece in sorted(pieces)]
    objects += [copper.removals[number].clear for number in sorted(set().union(*pieces.values()))]
    whole = [piece for piece in range(copper.count) if copper.layer(piece) == layer and piece not in pieces]
    # What has no width is not cut, and stays in UPPER alone.
    whole += [piece for piece in pieces if side == UPPER and copper.shapes.radius[piece] == 0]
    return file_text([*map(copper.shapes.solid, whole), *(solid for solid, _ in dark_and_clear.cut(objects)[1 + side])])


def made(copper: Copper, taken: Sequence[Taken], numbers: Set[int], side: int) -> Judged:
    """The judged board without what some things take away; Refused where it has no answer."""
    package = copper.told.package
    names, files = list(package.manifest.copper), {}
    for its in taken:
        pieces = without(its, numbers)
        if pieces:
            names[its.layer - 1] = package.free_name(f"made{its.layer}", ".gbr")
            files[names[its.layer - 1]] = layer_text(copper, its.layer, pieces, side).encode("ascii")
    if not files:
        return copper.told
    return judged_with(copper.program, package, names, files)


def judged_with(program: Program, package: Package, names: List[str], files: Dict[str, bytes]) -> Judged:
    """A copy of a package with other copper files, judged; Refused where it has no answer."""
    answer = judged.judge(
        program, package.changed(beside(package, "made"), files, package.manifest.changed(copper=names))
    )
    if answer.report is None:
        raise Refused(f"the board as it is made: {answer.line}")
    return answer
