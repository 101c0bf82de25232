"""Gaps that somebody has signed for: each place where both nets are closer than asked lies near one of the waiver's,
and is no narrower.

A gap is told once for two nets on a layer, at its narrowest place. So that a waiver hides no other place, lines of both
are walked along where they are too close, in steps; between two of these a place moves no farther than the step, and
the distance is that of one of them at least, since the nearest place of two lines is among them. Between two bounds the
upper board is looked at, whose nets come nearest.
"""
from math import ceil, hypot
from typing import Any, Iterator, List, NamedTuple, Optional, Sequence, Tuple

from boardnet_show.findings.board import Board
from boardnet_show.findings.finding import Finding
from boardnet_show.findings.waivers import Place, Waiver
from boardnet_show.formats.ipc356 import NO_NET
from boardnet_show.geometry import box_grid, nearest_places
from boardnet_show.geometry.distances import from_line
from boardnet_show.geometry.pieces import Line, Spot

from .gaps_between_bounds import Parts
from .spacing import STEP, Lines

WALK = 500_000  # 0.05 mm
LEAST_WITHIN = 2 * WALK
MOST_PLACES = 200
ROUNDED = 10  # u: the places of a waiver are whole


class Close(NamedTuple):
    """A place where two nets are closer than asked, and how far apart they are there, rounded down as it is told."""

    distance: int
    place: Place


# ---- where two nets are too close


def spots_along(line: Line, other: Line, most: int) -> Iterator[Spot]:
    """Places of a line, in steps, where another one may be at most so far, and the one that is nearest to it."""
    (ax, ay), (bx, by) = line
    length = hypot(bx - ax, by - ay)
    nearest = nearest_places.between(line, other)[1]
    yield round(nearest[0]), round(nearest[1])
    if not length:
        return
    ahead = [((x - ax) * (bx - ax) + (y - ay) * (by - ay)) / length for x, y in other]
    count = ceil(length / WALK)
    first = max(0, int((min(ahead) - most) / length * count) - 1)
    last = min(count, ceil((max(ahead) + most) / length * count) + 1)
    for k in range(first, last + 1):
        yield ax + (bx - ax) * k // count, ay + (by - ay) * k // count


def close_along(line: Line, r: int, other: Line, s: int, layer: int, u: int) -> Iterator[Close]:
    """Where the round of a line is closer than u to that of another one, by places of the first."""
    for spot in spots_along(line, other, u + r + s):
        distance = from_line(spot, *other) - r - s
        if distance < u:
            foot = nearest_places.nearest_on(other, spot)
            far = hypot(foot[0] - spot[0], foot[1] - spot[1])
            x, y = nearest_places.towards(spot, foot, r + max(distance, 0) / 2, far)
            yield Close(max(distance, 0) // STEP * STEP, (round(x), round(y), layer))


def closes(lines: Lines, nets: Sequence[int], layer: int, u: int) -> List[Close]:
    """All places where two nets are closer than u on a layer, the narrowest first."""
    (ours, our_boxes), (theirs, their_boxes) = (lines.of(net, layer) for net in nets)
    wide = [(left - u, low - u, right + u, high + u) for left, low, right, high in our_boxes]
    found = set()
    for i, j in box_grid.pairs([*wide, *their_boxes]):
        if j < len(wide) <= i:
            (one, r, _), (two, s, _) = ours[j], theirs[i - len(wide)]
            found.update(close_along(one, r, two, s, layer, u))
            found.update(close_along(two, s, one, r, layer, u))
    return sorted(found)


# ---- waivers


def is_within(place: Place, other: Place, most: int) -> bool:
    return place[2] == other[2] and (place[0] - other[0]) ** 2 + (place[1] - other[1]) ** 2 <= most**2


def covering(its: Sequence[Close], within: int) -> Optional[List[Close]]:
    """Places near which all are, each no wider than these; None where that wants too many."""
    chosen: List[Close] = []
    for each in its:
        if not any(is_within(each.place, it.place, within - WALK - ROUNDED) for it in chosen):
            chosen.append(each)
            if len(chosen) > MOST_PLACES:
                return None
    return chosen


def are_signed(its: Sequence[Close], waiver: Waiver) -> bool:
    """Whether each place is near one of the waiver's, and no narrower than signed for there."""
    signed = list(zip(waiver.places, waiver.distances))
    most = waiver.within - WALK
    return bool(its) and all(
        any(it.distance >= distance and is_within(it.place, place, most) for place, distance in signed) for it in its
    )


class Gaps:
    """The gaps of a judged board, whose copper is known: of the board, or of both bounds."""

    def __init__(self, u: int, low: Board, high: Optional[Board] = None) -> None:
        self.u, self.low = u, low
        self.parts: Any = Parts(low, high) if high else None
        self.lines = Lines(high or low)

    def nets(self, finding: Finding) -> Optional[List[int]]:
        """The two nets whose copper comes nearest; None where they may be one, or are not known."""
        its = list(finding.nets)
        if self.parts:
            its = [self.parts.net_above(net) for net in its]
        return its if len(set(its)) == 2 and -1 not in its else None

    def closes(self, finding: Finding) -> List[Close]:
        nets = self.nets(finding)
        return closes(self.lines, nets, finding.gap.layer, self.u) if nets and finding.gap else []

    def names(self, finding: Finding) -> Tuple[Tuple[str, ...], ...]:
        """The names of each of both nets."""
        its: List[set] = [set() for _ in finding.nets]
        for _, _, name, net in self.low.report.points:
            if net in finding.nets and self.low.name(name) != NO_NET:
                its[list(finding.nets).index(net)].add(self.low.name(name))
        return tuple(sorted(tuple(sorted(names)) for names in its))

    def signed(self, finding: Finding, waiver: Waiver) -> Optional[Waiver]:
        """A waiver with what it says of a gap; None where that cannot be signed for."""
        its = covering(self.closes(finding), waiver.within)
        if not its or not waiver.names:
            return None
        return waiver._replace(
            pins=(),
            nets=self.names(finding),
            places=tuple(it.place for it in its),
            distances=tuple(it.distance for it in its),
            parts=0,
        )

    def is_of(self, waiver: Waiver, finding: Finding) -> bool:
        whole = self.low.package.whole
        nets = tuple(sorted(tuple(sorted(whole.get(name, name) for name in names)) for names in waiver.nets))
        return nets == self.names(finding) and are_signed(self.closes(finding), waiver)
