"""A contour with arcs between contours of whole corners.

Between a chain of chords and every curve that its arc may be lie the draws along the chain, as wide as they are apart.
What the chords' area and the real one do not share lies in them: so the area with these draws holds the real one, and
the area without them lies in it. Where all arcs are exact, contours within or round it that need no draws are tried
first.
"""
from functools import lru_cache
from typing import Any, List, NamedTuple, Optional, Sequence

from boardnet_show.bounds.polarity.sweep import Sweep
from boardnet_show.formats.gerber_machine import MOST_WIDE
from boardnet_show.geometry.arcs import Arc, arc_chain, distances, goes_once, is_loop, leaves, need_meant
from boardnet_show.geometry.capsule_polygons import polygon
from boardnet_show.geometry.exact import Refused
from boardnet_show.geometry.pieces import Capsule, Spot
from boardnet_show.geometry.segments import cross, dot

from .arc_contours import contour_bound
from .insets import eighth_chain, eighth_radius, inset

MOST_FAR = 5 * 10**9  # u that `between` looks at to each side of a contour's first spot


class Rounded(NamedTuple):
    """Corners of areas within a contour with arcs, corners round it, draws that widen these, whether it is closed and
    `between` reads it."""

    inner: tuple
    outer: list
    wide: list
    is_closed: bool = True
    is_read: bool = False


class Walked:
    """The parts of a contour, with chains in place of arcs: `outline`, `spots` of that without edges of no length;
    `coarse` with chains of eighth turns, and how far each of its edges is from its part at most; `is_told` says that no
    arc may be none or a whole turn, `is_kept` that the coarse chains are as near to their arcs as that."""

    def __init__(self, contour):
        self.outline, self.spots, self.coarse, self.parts = ([contour[0]] for _ in range(4))
        self.keeps, self.wide, self.is_exact, self.is_told, self.is_kept = [], [], True, True, True
        for part in contour[1:]:
            if len(part) == 2 or part[0] is None:
                self.go(part if len(part) == 2 else part[1])
            else:
                self.turn(*part)

    def go(self, end: Spot) -> None:
        self.outline.append(end)
        if end != self.spots[-1]:
            self.parts.append(end)
            self.spots.append(end)
            self.coarse.append(end)
            self.keeps.append(0)

    def turn(self, centre: Optional[Spot], end: Spot, anticlockwise: bool) -> None:
        start = self.spots[-1]
        first, last = (start, end) if anticlockwise else (end, start)
        need_meant(centre, first, last)
        chain, most = arc_chain(centre, first, last)
        self.is_told = (
            self.is_told and not is_loop(centre, first, last) and goes_once(lambda p, q: cross(centre, p, q), chain)
        )
        self.is_exact = self.is_exact and self.is_told and dot(centre, start, start) == dot(centre, end, end)
        self.wide += [Capsule(a, b, most) for a, b in zip(chain, chain[1:])]
        chain, turns = (its if anticlockwise else its[::-1] for its in (chain, eighth_chain(centre, first, last)))
        self.outline += chain[1:]
        self.spots += [spot for k, spot in enumerate(chain[1:]) if spot != chain[k]]
        self.coarse += turns[1:]
        self.keeps += [eighth_radius(centre, start)] * (len(turns) - 1)
        self.is_kept = (
            self.is_kept and self.is_told and leaves(centre, turns, *distances(centre, first, last)) <= self.keeps[-1]
        )
        self.parts.append((centre, start, end, anticlockwise))

    def bound(self, upper: bool) -> Optional[List[Spot]]:
        """The corners of an area within the contour, or round it, where its arcs are exact; None where none is
        found."""
        return (
            contour_bound([Arc(*part) if len(part) == 4 else part for part in self.parts], upper)
            if self.is_exact
            else None
        )


@lru_cache(1000)
def rounded_contour(contour: Sequence[Any], cuts: bool, is_coarse: bool) -> Rounded:
    """What lies within and round a contour with arcs. `between` reads one whose arcs are told, of three parts or more
    or with an arc; it wants one area within that is clear of its edges, or none."""
    it = Walked(contour)
    corners = it.spots[:-1]
    if it.spots[0] != it.spots[-1]:
        return Rounded((), it.spots, it.wide, False)
    if len(corners) < 3:
        return Rounded((), (), it.wide)
    is_read = it.is_told and (len(contour) > 3 or any(len(part) == 4 for part in it.parts))
    if is_read and is_coarse:
        found = it.is_kept and 2 * max(it.keeps) <= MOST_WIDE and inset(it.coarse[:-1], it.keeps)
        is_near = found and max(abs(v) for spot in [*found, *it.coarse] for v in spot) + max(it.keeps) < MOST_FAR
        return Rounded((found,) if is_near else (), it.outline[:-1], it.wide, True, True)
    inner, outer = it.bound(False), it.bound(True) if cuts else None
    return Rounded(
        (inner,) if inner else without(corners, it.wide), outer or corners, [] if outer else it.wide, True, is_read
    )


def without(corners, wide):
    """What of an area lies in none of some draws."""
    try:
        return tuple(
            found
            for found, _ in Sweep([(True, corners), *((False, polygon(piece, True)) for piece in wide)], False).out
        )
    except Refused:
        return ()
