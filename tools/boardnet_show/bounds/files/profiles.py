"""Where the board is, for negative files: within the centre lines and contours of the files beside it that say by
their own `TF.FileFunction` that they are its profile. Its inside is by even and odd of what closes.
"""
from collections import defaultdict
from typing import Dict, Iterable, Iterator, List, NamedTuple, Optional, Sequence, Tuple, Union

from boardnet_show.base.wording import millimetres
from boardnet_show.bounds.polarity.dark_and_clear import Object, box
from boardnet_show.bounds.polarity.negative import around
from boardnet_show.bounds.primitives.rounded_contours import Walked, rounded_contour
from boardnet_show.formats.gerber_machine import ANTICLOCKWISE
from boardnet_show.geometry.exact import Refused
from boardnet_show.geometry.pieces import Area, Box, Piece, Spot
from boardnet_show.geometry.segments import Segments, edges, odd_inside, segments_within

from .bounded_file import Copper

# A part of an outline: start, end, centre or None, whether anticlockwise; and a contour of such parts.
Line = Tuple[Spot, Spot, Optional[Spot], bool]
Contour = Sequence[Union[Spot, Tuple[Optional[Spot], Spot, bool]]]


class Outline(NamedTuple):
    """Dark and clear objects that are the board's inside, the outermost first; why they are not known, and the box of
    all that is."""

    objects: List[Object]
    why: str
    box: Box


def outline_of(profiles: Sequence[str], texts: Sequence[str]) -> Outline:
    """The outline by the texts of profile files; where it is not known, the box of these and of all copper files'
    objects."""
    lines, why = [], "" if profiles else "no file of the folder is its profile"
    try:
        for text in profiles:
            lines += Profile(text).lines
        loops = [Loop(contour) for contour in loops_of(lines)]
        if profiles and not loops:
            raise Refused("it has no line")
        need_apart(loops)
        inside = [*nested(loops)]
        need_no_copper([*zip(sorted_by_size(loops), inside)], texts)
    except Refused as refused:
        why = f"its profile says no inside: {refused}"
    if not why:
        return Outline(inside, "", around(loop.box for loop in loops))
    seen = [box(piece) for text in texts for it in Copper(text, cuts=True).objects for piece in it.both[1]]
    seen += [(*map(min, zip(*its)), *map(max, zip(*its))) for its in (line[:2] for line in lines)]
    return Outline([], why, around(seen))


class Profile(Copper):
    """Walks a profile file: `lines` are the parts of its centre lines and contours, each (start, end, centre or None,
    anticlockwise)."""

    def __init__(self, text: str) -> None:
        self.lines = []
        super().__init__(text, cuts=True)
        if self.clears or self.negative:
            raise Refused("clear polarity")

    def draw(self, start: Spot) -> None:
        self.lines.append((start, self.spot, None, True))

    def arc_about(self, start: Spot, centre: Optional[Spot]) -> None:
        if centre is not None:
            self.lines.append((start, self.spot, centre, self.mode == ANTICLOCKWISE))

    def flash(self) -> None:
        raise Refused("a flash")

    def repeat(self, text: str) -> None:
        if text != "SR":
            raise Refused("step and repeat")

    def block(self, word: str) -> None:
        raise Refused("a block")

    def end_region(self, contours: List[Contour]) -> None:
        for spot, *parts in contours:
            for part in parts:
                centre, end, anticlockwise = part if len(part) == 3 else (None, part, True)
                self.lines.append((spot, end, centre, anticlockwise))
                spot = end


def loops_of(lines: Iterable[Line]) -> List[Contour]:
    """Closed contours of lines and arcs that meet end to end, each line once; refused where one does not close, or
    more than two meet."""
    once, ends = {}, defaultdict(list)
    for start, end, centre, anticlockwise in lines:
        if centre is None:
            start, end = sorted((start, end))
        elif not anticlockwise:
            start, end = end, start
        if start != end or centre is not None:
            once[start, end, centre] = None
    for line in once:
        if line[0] != line[1]:
            ends[line[0]].append(line)
            ends[line[1]].append(line)
    wrong = next((spot for spot, its in ends.items() if len(its) != 2), None)
    if wrong:
        raise Refused(f"{len(ends[wrong])} of its lines end at {', '.join(map(millimetres, wrong))} mm")
    return [(start, (centre, end, True)) for start, end, centre in once if start == end] + [*rings(once, ends)]


def rings(once: Iterable[Line], ends: Dict[Spot, List[Line]]) -> Iterator[Contour]:
    """The contours of lines of which two meet at each end."""
    left = {line for line in once if line[0] != line[1]}
    for line in once:
        contour, spot = [line[0]], line[0]
        while line in left:
            left.remove(line)
            start, end, centre = line
            is_ahead = spot == start
            spot = end if is_ahead else start
            contour.append(spot if centre is None else (centre, spot, is_ahead))
            line = next((it for it in ends[spot] if it in left), line)
        if len(contour) > 1:
            yield tuple(contour)


class Loop:
    """A closed contour: areas within it and round it, its corners by chords, and how far these are off at most."""

    def __init__(self, contour: Contour) -> None:
        walked, made = Walked(contour), rounded_contour(contour, True, False)
        if not walked.is_told or len(walked.spots) < 4:
            raise Refused("an arc or a loop of nearly no length")
        self.corners, self.off = walked.spots[:-1], max((piece.radius for piece in walked.wide), default=0)
        self.both = [Area([*corners]) for corners in made.inner], [Area([*made.outer]), *made.wide]
        self.box = around(map(box, self.both[1]))

    def size(self) -> int:
        return (self.box[2] - self.box[0]) * (self.box[3] - self.box[1])


def need_apart(loops: Sequence[Loop]) -> None:
    """Refused where two contours come as near as their chords are off."""
    its = [(k, edge) for k, loop in enumerate(loops) for edge in edges(loop.corners)]
    grid, most = Segments([edge for _, edge in its]), 2 * max((loop.off for loop in loops), default=0) + 1
    for k, (a, b) in its if len(loops) > 1 else ():
        for near in grid.near(a, b, most):
            other, line = its[near]
            if other != k and segments_within(a, b, *line, loops[k].off + loops[other].off):
                raise Refused(f"two of its contours meet near {', '.join(map(millimetres, a))} mm")


def need_no_copper(inside: Sequence[Tuple[Loop, Object]], texts: Sequence[str]) -> None:
    """Refused where copper that files draw lies wholly in what would be cut out: so would be read what has both sides
    of an outline's line, or the outline of a panel round that of the board, and no plane would be left on the board."""
    is_cut = not all(it.dark for _, it in inside)
    for copper in [Copper(text, cuts=True) for text in texts] if is_cut else ():
        for it in copper.objects if not copper.negative else ():
            if it.dark and it.both[1] and not innermost(inside, it.both[1]):
                raise Refused(
                    f"copper lies in what it cuts out, near "
                    f"{', '.join(map(millimetres, box(it.both[1][0])[:2]))} mm"
                )


def innermost(inside: Sequence[Tuple[Loop, Object]], pieces: Sequence[Piece]) -> bool:
    """Whether the smallest contour that has pieces in its box and the first place of one within is dark; they may lie
    in none."""
    left, low, right, high = around(map(box, pieces))
    first = pieces[0].corners[0] if isinstance(pieces[0], Area) else pieces[0].start
    for loop, it in reversed(inside):
        if (
            loop.box[0] <= left
            and loop.box[1] <= low
            and right <= loop.box[2]
            and high <= loop.box[3]
            and odd_inside(loop.corners, first)
        ):
            return it.dark
    return True


def sorted_by_size(loops: Iterable[Loop]) -> List[Loop]:
    return sorted(loops, key=Loop.size, reverse=True)


def nested(loops: Sequence[Loop]) -> Iterator[Object]:
    """The contours in order of their size, which is dark within an even number of others, and clear within an odd
    one."""
    for loop in sorted_by_size(loops):
        outer = sum(odd_inside(other.corners, loop.corners[0]) for other in loops if other is not loop)
        yield Object(outer % 2 == 0, loop.both, 0)
