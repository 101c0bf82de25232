"""Contours that go round a place an even number of times, as one that crosses itself can: bare by even and odd, our
rule, and copper in a reader that counts turns. A place is sought beside the edges that meet others: each area that is
gone round twice has such a one."""
from fractions import Fraction
from typing import Dict, List, NamedTuple, Optional, Set, Tuple

from boardnet_show.geometry.box_grid import pairs
from boardnet_show.geometry.segments import Bands, box_of_line, cross, dot, edges, point_within

Spot = Tuple[int, int]
Edge = Tuple[Spot, Spot]
Cuts = Dict[int, Set[Fraction]]
# What `Bands` takes: places times 2^21, so that half a unit is whole.
BITS = 21


class Wound(NamedTuple):
    """A place within a contour, and how often the contour goes round it."""

    place: Tuple[float, float]
    times: int


class Turns(Bands):
    """How often a contour goes round places."""

    def turns(self, px: int, py: int) -> int:
        found, (px, py) = 0, (py, px) if self.turn else (px, py)
        for a, b in self.rows.get(((py >> BITS) - self.low) // self.step, ()):
            ax, ay, bx, by = a[0] << BITS, a[1] << BITS, b[0] << BITS, b[1] << BITS
            if (ay > py) != (by > py) and (((bx - ax) * (py - ay) - (by - ay) * (px - ax)) > 0) == (by > ay):
                found += 1 if by > ay else -1
        return abs(found)


def part(spot: Spot, edge: Edge) -> Fraction:
    """How far along an edge a spot on it lies."""
    a, b = edge
    return Fraction(dot(a, spot, b), dot(a, b, b))


def meet(one: Edge, other: Edge, cuts: Set[Fraction], others: Set[Fraction]) -> None:
    """Adds where two edges cross, or an end of one lies on the other."""
    (a, b), (c, d) = one, other
    far = cross(a, b, c), cross(a, b, d), cross(c, d, a), cross(c, d, b)
    if far[0] * far[1] < 0 and far[2] * far[3] < 0:
        cuts.add(Fraction(far[2], far[2] - far[3]))
        others.add(Fraction(far[0], far[0] - far[1]))
        return
    cuts.update(part(spot, one) for spot in other if point_within(spot, a, b, 0))
    others.update(part(spot, other) for spot in one if point_within(spot, c, d, 0))


def goes_on(one: Edge, other: Edge) -> bool:
    """Whether an edge begins where one ends, and does not go back along it: then they have that corner alone."""
    (a, b), (c, d) = one, other
    return b == c and (cross(a, b, d) != 0 or dot(b, a, d) < 0)


def cuts_of(every: List[Edge]) -> Cuts:
    """Where edges meet others, but for corners at which one follows another."""
    found: Cuts = {}
    for i, j in pairs([box_of_line(a, b, 0) for a, b in every]):
        one, other = every[i], every[j]
        apart = (i - j) % len(every)
        if apart == 1 and goes_on(other, one) or apart == len(every) - 1 and goes_on(one, other):
            continue
        cuts: Set[Fraction] = set()
        others: Set[Fraction] = set()
        meet(one, other, cuts, others)
        if cuts or others:
            found.setdefault(i, set()).update(cuts)
            found.setdefault(j, set()).update(others)
    return found


def beside(edge: Edge, along: Fraction) -> List[Spot]:
    """The places half a unit on both sides of one on an edge."""
    (ax, ay), (bx, by) = edge
    x, y = (int((p + (q - p) * along) * (1 << BITS)) for p, q in ((ax, bx), (ay, by)))
    across, up = by - ay, ax - bx
    most = max(abs(across), abs(up))
    return [(x + side * ((across << BITS - 1) // most), y + side * ((up << BITS - 1) // most)) for side in (1, -1)]


def wound_twice(corners: List[Spot]) -> Optional[Wound]:
    """A place that a contour goes round an even number of times, or nothing."""
    every = [(a, b) for a, b in edges(corners) if a != b]
    cuts = cuts_of(every)
    turns = Turns(corners) if cuts else None
    for number in sorted(cuts) if turns else ():
        parts = sorted(cuts[number] | {Fraction(0), Fraction(1)})
        for one, other in zip(parts, parts[1:]):
            for x, y in beside(every[number], (one + other) / 2):
                times = turns.turns(x, y)
                if times and times % 2 == 0:
                    return Wound((x / (1 << BITS), y / (1 << BITS)), times)
    return None
