"""Regions of a copper file: each contour with arcs as what stands for it on both sides."""
from typing import List, NamedTuple, Optional, Sequence, Tuple, Union

from boardnet_show.bounds.primitives.rounded_contours import rounded_contour
from boardnet_show.formats.gerber_machine import ANTICLOCKWISE, MOST_EDGES
from boardnet_show.geometry.exact import Refused
from boardnet_show.geometry.pieces import Area, Capsule, Spot

from .bound_writer import edges_of

# A contour as it is walked: its first spot, then spots and arcs.
Arc = Tuple[Optional[Spot], Spot, bool]
Walked = List[Union[Spot, Arc]]


class Regions:
    """A contour is its first spot, then spots and arcs (centre, end, counterclockwise); the centre of an arc of no
    length is None."""

    def __init__(self) -> None:
        self.contours, self.long = None, set()

    def region_begins(self) -> None:
        if self.contours is not None:
            self.other(self.word.text)
        self.in_region, self.contours = True, []

    def flash_in_region(self, start: Spot) -> None:
        raise Refused("a flash in a region")

    def contour(self, start: Spot) -> None:
        self.contours.append([self.spot])

    def edge(self, start: Spot) -> None:
        if not self.contours:
            self.contours.append([start])
        self.contours[-1].append(self.spot)

    def arc_edge(self, start: Spot, centre: bytes) -> None:
        centre = self.centre(start, self.offset(centre))
        if not self.contours:
            self.contours.append([start])
        self.contours[-1].append((centre, self.spot, self.mode == ANTICLOCKWISE))

    def region_ends(self) -> None:
        if self.contours is None:
            self.other(self.word.text)
            return
        contours, self.contours, self.in_region = self.contours, None, False
        self.end_region(contours)

    def end_region(self, contours: List[Walked]) -> None:
        if self.passes():
            return
        made = [self.bounded(contour) for contour in contours if len(contour) > 1]
        is_bent = any(it.is_bent for it in made)
        if is_bent:
            rows = [it.row for it in made]
            self.stands(None if None in rows else rows)
        both = [[Area(run[:-1]) for it in made for run in it.runs[k]] for k in (0, 1)] if self.is_noted() else [(), ()]
        grown = [piece for it in made for piece in it.grown]
        if self.stays(both[0], [*both[1], *grown], None, len(made) < 2):
            for its in [[it] for it in made] if is_bent else [made]:
                self.write_region(its)
        elif any(run[0] != run[-1] or len(run) < 4 for it in made for runs in it.runs for run in runs):
            raise Refused("a contour that is not closed")
        if any(len(run) > MOST_EDGES for it in made for runs in it.runs for run in runs):
            self.long.add(self.number)
        for side in self.sides:
            side.at = None

    def write_region(self, made: Sequence["Contour"]) -> None:
        """Contours, and behind them the draws that widen the upper ones."""
        runs, grown = [[run for it in made for run in it.runs[k]] for k in (0, 1)], [
            piece for it in made for piece in it.grown
        ]
        edges = {
            key: edges_of(run) for key, run in {id(run): run for its in runs for run in its}.items()
        }  # most are of both sides
        if grown or [*map(id, runs[0])] != [*map(id, runs[1])]:
            self.unlike.add(self.number)
        for side, its in zip(self.sides, runs):
            if its or not made:
                side.word("G36*", self.number)
                for run in its:
                    side.run(run, self.number, edges[id(run)])
                side.word("G37*", self.number)
            side.at = None
        self.sides[1].pieces(grown, (0, 0), self.number)

    def bounded(self, contour: Walked) -> "Contour":
        """What stands for a contour on both sides."""
        if all(len(part) == 2 for part in contour):
            return Contour(([contour], [contour]), [], False, (1, 1))
        x, y = contour[0]
        by = lambda spot: (spot[0] + x, spot[1] + y)
        back = lambda spot: spot and (spot[0] - x, spot[1] - y)
        made = rounded_contour(
            tuple(back(part) if len(part) == 2 else (back(part[0]), back(part[1]), part[2]) for part in contour),
            self.cuts,
            self.is_coarse,
        )
        self.is_bent = self.is_bent or made.is_read
        grown = [Capsule(by(a), by(b), most) for a, b, most in made.wide]
        if not made.is_closed:
            run = [*map(by, made.outer)]
            return Contour(([run], [run]), grown, True, None)
        if not made.inner:
            self.lose("a contour with arcs of the region")
        run = lambda corners: [*map(by, corners), by(corners[0])]
        runs = [run(corners) for corners in made.inner], [run(made.outer)] if made.outer else []
        return Contour(runs, grown, True, (len(runs[0]), 1 + len(grown)) if made.is_read else None)


class Contour(NamedTuple):
    """What stands for a contour: runs of places on both sides, draws that widen the upper ones, whether it has arcs,
    and where `between` reads it how many pieces both sides have."""

    runs: tuple
    grown: list
    is_bent: bool
    row: tuple
