"""Operations of a copper file: draws, arcs, flashes."""
from fractions import Fraction as Q
from functools import lru_cache
from typing import List, Optional, Tuple

from boardnet_show.bounds.apertures import apertures
from boardnet_show.bounds.polarity.dark_and_clear import moved
from boardnet_show.formats.gerber_machine import ANTICLOCKWISE, DRAW, FLASH, MOVE
from boardnet_show.geometry.arcs import chain_bounds, draw_bounds
from boardnet_show.geometry.capsule_polygons import ring
from boardnet_show.geometry.exact import Refused
from boardnet_show.geometry.pieces import Both, Capsule, Spot
from boardnet_show.geometry.segments import cross, dot


@lru_cache(1000)
def arc_beside(centre: Optional[Spot], end: Spot, radius: Q) -> Tuple[Optional[List[Spot]], Both]:
    """The chain and the draws below and above of a draw from the origin: many arcs of a board are alike."""
    ends = ((0, 0), end)
    return draw_bounds(centre, *ends, radius) if centre is not None else (None, chain_bounds(ends, 0, radius))


class Operations:
    """`rows` are the commands whose copper is outside the profile and that `between` reads: for each of their own
    pieces how many those of both sides are."""

    def __init__(self) -> None:
        self.rows, self.frames = {}, 0

    def stands(self, pieces: Optional[List[Tuple[int, int]]]) -> None:
        """Notes these pieces, each as those that stand for it on both sides, of a command that is written otherwise."""
        self.replaced += 1
        if pieces is not None:
            self.rows[self.number] = pieces

    def implied(self) -> None:
        if self.code is None or self.code is MOVE:
            raise Refused("coordinates without an operation")
        self.replaced += self.code is FLASH

    def mismatched(self, is_arc: bool) -> None:
        raise Refused("an arc without I and J" if is_arc else "I or J without an arc")

    def move(self) -> None:
        for side in self.sides:
            side.operate(self.spot, MOVE, self.number)

    # ---- arcs

    def centre(self, start: Spot, offset: Spot) -> Optional[Spot]:
        """The centre of an arc; None where a single quadrant has both ends at one place, so no arc. Where rounding
        makes a quarter circle more than a right angle, as much as a unit of the file at both ends is allowed. Of
        several centres the ends of the one that is meant are the least unlike; of those as unlike it is the one at
        most a right angle."""
        if not self.quadrants:
            raise Refused("an arc before G74 or G75")
        if self.quadrants == "G75":
            return start[0] + offset[0], start[1] + offset[1]
        if start == self.spot:
            return None
        found = []
        for c in {(start[0] + dx, start[1] + dy) for dx in (offset[0], -offset[0]) for dy in (offset[1], -offset[1])}:
            turn = cross(c, start, self.spot) * (1 if self.mode == ANTICLOCKWISE else -1)
            reach = sum(abs(p[k] - c[k]) for p in (start, self.spot) for k in (0, 1))
            apart = abs(dot(c, start, start) - dot(c, self.spot, self.spot))
            if turn >= 0 and dot(c, start, self.spot) >= -self.unit * (reach + self.unit):
                found.append((apart, dot(c, start, self.spot) < 0, c))
        found.sort()
        if not found or len(found) > 1 and found[0][:2] == found[1][:2]:
            raise Refused("an arc without one centre")
        return found[0][2]

    def arc(self, start: Spot, centre: bytes) -> None:
        self.arc_about(start, self.centre(start, self.offset(centre)))

    def arc_about(self, start: Spot, centre: Optional[Spot]) -> None:
        anticlockwise = self.mode == ANTICLOCKWISE
        radius = self.pen_radius()
        if self.passes():
            return
        first, last = (start, self.spot) if anticlockwise else (self.spot, start)
        back = lambda spot: spot and (spot[0] - first[0], spot[1] - first[1])
        chain, both = arc_beside(back(centre), back(last), radius)
        self.stands(None if radius > 0 and centre in (first, last) else [tuple(map(len, both))])
        if radius > 0 and not both[0]:
            self.lose("an arc")
        areas = (
            ring(centre, [(x + first[0], y + first[1]) for x, y in chain], radius.__ceil__())
            if self.cuts and chain
            else None
        )
        self.write_pieces(both, areas, first)

    def pen_radius(self) -> Q:
        made = self.aperture()
        if made is None:
            raise Refused("no aperture")
        if not isinstance(made, apertures.Pen) or made.radius is None:
            raise Refused("an arc with a pen that is no circle")
        self.replaced += not (made.is_even or made.is_read)
        return made.radius * self.change.size

    # ---- draws and flashes

    def write_pieces(self, both: Both, areas: Optional[List[List[Spot]]] = None, by: Spot = (0, 0)) -> None:
        """Pieces about a place."""
        if self.stays(
            *([moved(piece, *by) for piece in pieces] for pieces in both) if self.is_noted() else ((), ()), areas
        ):
            self.write_both(both, by)

    def write_both(self, both: Both, by: Spot) -> None:
        self.unlike.add(self.number)
        for side, pieces in zip(self.sides, both):
            side.pieces(pieces, by, self.number)

    def draw(self, start: Spot) -> None:
        made = self.aperture()
        if made is not None and (
            not isinstance(made, apertures.Pen) or made.radius is None or self.change.alters(made)
        ):
            self.replaced += 1
            pen = None if isinstance(made, apertures.Block) else self.changed(made)
            if not pen or not pen.is_pen:
                raise Refused("a draw with a pen that is no circle, rectangle, obround or polygon")
            self.write_pieces(
                [[piece for it in pieces for piece in apertures.swept(it, start, self.spot)] for pieces in pen.both]
            )
            return
        drawn = (
            [[Capsule(start, self.spot, size[0] // 2)] if size[0] else [] for size in made.sizes] if made else ([], [])
        )
        self.replaced += bool(made) and not (made.is_even or made.is_read)
        if self.stays(*drawn):
            for side in self.sides:
                if made:
                    side.select(self.chosen, self.number)
                side.move(start, self.number)
                side.operate(self.spot, DRAW, self.number)

    def flash(self) -> None:
        made = self.aperture()
        if isinstance(made, apertures.Block):
            self.flash_block(made)
            return
        if made is not None and (self.change.alters(made) or not isinstance(made, apertures.Pen)):
            shape = self.framed(self.changed(made))
            self.stands(shape.rows)
            if shape.lost:
                self.lose(shape.lost)
            if self.stays(
                *([moved(piece, *self.spot) for piece in pieces] for pieces in shape.both)
                if self.is_noted()
                else ((), ())
            ):
                self.write_both(shape.both, self.spot)
            return
        flat = made.both if made and self.is_noted() else ([], [])
        if not self.stays(*([moved(piece, *self.spot) for piece in pieces] for pieces in flat)):
            return
        for side in self.sides:
            if made:
                side.select(self.chosen, self.number)
            side.operate(self.spot, FLASH, self.number)

    def framed(self, shape: apertures.Shape) -> apertures.Shape:
        """The shape; of a rectangle with a hole the one that `between` takes, where it is asked, and of further ones
        the plain one."""
        if not shape.smaller:
            return shape
        self.frames += 1
        if self.frames > apertures.MOST_FRAMES:
            return shape.plainer
        self.is_bent = True
        return shape.smaller if self.is_coarse else shape

    def flash_block(self, block: apertures.Block) -> None:
        """Its objects, each changed and moved; a clear flash turns dark into clear and clear into dark."""
        self.replaced += 1
        self.lost += [f"{what} of the block at command {self.number}" for what in block.lost]
        for was, it in zip(block.objects, self.change.objects(block)):
            lost = self.change.lost(was.both[0], len(it.both[0])) if was.dark else None
            if lost:
                self.lost.append(f"{lost} a changed object of the block at command {self.number}")
            both = tuple([moved(piece, *self.spot) for piece in pieces] for pieces in it.both)
            self.stays_as(it.dark == self.is_dark, both, None, it.joins)
            if it.dark == self.is_dark and self.number not in self.taken:
                self.write_both(both, (0, 0))
