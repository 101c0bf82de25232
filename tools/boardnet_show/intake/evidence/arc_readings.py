"""How the arcs of a copper file are read that says neither G74 nor G75 before them: by the radii that each makes of
them.

With G75 an arc's centre is its start and the offset. With G74 the offset has no signs, and an arc is at most a right
angle about one of four centres. A reading is taken where all arcs fit it, and the other is impossible or makes the
same of them.
"""
from math import isqrt
from typing import List, NamedTuple, Optional, Tuple, cast

from boardnet_show.base.wording import counted
from boardnet_show.formats.gerber_lexer import Run, Word, may_lack_quadrants
from boardnet_show.formats.gerber_machine import ANTICLOCKWISE, STRAIGHT, Code, Machine, Spot
from boardnet_show.geometry.exact import Refused

PARTS = 100  # of a unit, in which radii are compared
ALIKE = 3  # units that the radii of both ends may differ by: four numbers are rounded
OTHER = 10  # units by which they differ where that is no rounding


class Arc(NamedTuple):
    """An arc that is no chord: its ends, its offset as it stands, and its direction."""

    start: Spot
    end: Spot
    offset: Spot
    is_anticlockwise: bool

    def difference(self, centre: Spot) -> int:
        """How much the radii of both ends differ, in parts of a unit."""
        first, last = (
            isqrt(PARTS**2 * sum((a - b) ** 2 for a, b in zip(spot, centre))) for spot in (self.start, self.end)
        )
        return abs(first - last)

    def several(self) -> Spot:
        """The centre that G75 means."""
        return self.start[0] + self.offset[0], self.start[1] + self.offset[1]

    def single(self) -> List[Spot]:
        """The centres that G74 may mean: with radii that fit, and at most about a right angle."""
        (x, y), (i, j) = self.start, self.offset
        return [
            centre
            for centre in sorted({(x + dx, y + dy) for dx in (i, -i) for dy in (j, -j)})
            if self.difference(centre) <= ALIKE * PARTS and self.is_right_angle(centre)
        ]

    def is_right_angle(self, centre: Spot) -> bool:
        """Whether it turns about a centre by at most a right angle, but for rounding."""
        (ax, ay), (bx, by) = ((spot[0] - centre[0], spot[1] - centre[1]) for spot in (self.start, self.end))
        turn = (ax * by - ay * bx) * (1 if self.is_anticlockwise else -1)
        reach = abs(ax) + abs(ay) + abs(bx) + abs(by)
        return turn >= 0 and ax * bx + ay * by >= -(reach + 1)


class Arcs(Machine):
    """The arcs of a file before any word of quadrants, and a word before them that says nothing and stands outside of
    regions."""

    RUNS = True

    def __init__(self, data: bytes) -> None:
        super().__init__()
        self.found: List[Arc] = []
        self.spare: Optional[Word] = None
        self.read(data)

    def run(self, run: Run) -> None:
        if self.mode == STRAIGHT:
            self.spot, self.code = (run.xs[-1], run.ys[-1]), Code(run.codes[-1])
        else:
            super().run(run)

    def arc(self, start: Spot, centre: bytes) -> None:
        if not self.quadrants:
            self.found.append(Arc(start, self.spot, self.offset(centre), self.mode == ANTICLOCKWISE))

    arc_edge = arc

    def comment(self, text: bytes) -> None:
        if not self.found and not self.in_region and b"#@!" not in text and b"\n" not in text:
            self.spare = cast(Word, self.word)

    def other(self, text: bytes) -> None:
        if not text and not self.found and not self.in_region:
            self.spare = cast(Word, self.word)


def quadrants_of(arcs: List[Arc]) -> Tuple[bytes, int]:
    """The word of quadrants that arcs are of, or nothing; and how many cannot be read by the other one."""
    is_signed = any(min(arc.offset) < 0 for arc in arcs)
    differences = [arc.difference(arc.several()) for arc in arcs]
    centres = [[] if arc.start == arc.end else arc.single() for arc in arcs]
    if max(differences) <= ALIKE * PARTS:
        is_other = [not its for arc, its in zip(arcs, centres) if arc.start != arc.end]
        is_same = all(its == [arc.several()] for arc, its in zip(arcs, centres))
        return (b"G75", sum(is_other)) if is_signed or any(is_other) or is_same else (b"", 0)
    unlike = sum(difference > OTHER * PARTS for difference in differences)
    is_single = not is_signed and unlike and all(len(its) == 1 for its in centres)
    return (b"G74", unlike) if is_single else (b"", 0)


def reading(data: bytes) -> Optional[Tuple[str, bytes]]:
    """How the arcs are read, in words, and the file with the word of quadrants; None where that is not clear, or
    said."""
    if not may_lack_quadrants(data):
        return None
    try:
        its = Arcs(data)
    except Refused:
        return None
    word, count = quadrants_of(its.found) if its.found else (b"", 0)
    if not word:
        return None
    if word == b"G75":
        words = (
            "with arcs of several quadrants (G75), which it does not say: the radii of all"
            f" {counted(len(its.found), 'arc')} fit"
        )
    else:
        words = (
            "with arcs of a single quadrant (G74), which it does not say: no offset is negative, and with G75 the"
            f" radii of {count} of {counted(len(its.found), 'arc')} differ"
        )
    if its.spare:
        return words, data[: its.spare.start] + word + data[its.spare.end :]
    return f"{words}; one command more stands before all", word + b"*" + data
