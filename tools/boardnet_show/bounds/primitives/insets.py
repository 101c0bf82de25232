"""Contours within regions with arcs, as `between` takes them: clear of the straight edges, and of draws along chains of
eighth turns for arcs; and within turned outlines, clear of draws along their edges.

How the corners were found does not matter: they are tested.
"""
from itertools import groupby
from math import isqrt
from typing import Any, List, Optional, Sequence

from boardnet_show.geometry.arcs import rounded
from boardnet_show.geometry.pieces import Corners, Spot
from boardnet_show.geometry.segments import Segments, cross, dot, edges, odd_inside, segments_within

FURTHER = (2, 4, 16)  # u that edges are moved more than they have to be
ROUNDS = 16  # of leaving edges out


def eighth_turns(centre: Spot, first: Spot) -> List[Spot]:
    """A place turned by one eighth turn to seven, counterclockwise, to the nearest u."""
    (x, y), (u, v) = centre, (first[0] - centre[0], first[1] - centre[1])
    a, b = tuple((70 * part + 49) // 99 for part in (u - v, u + v)), (-v, u)
    for _ in range(7):
        yield x + a[0], y + a[1]
        a, b = b, (-a[1], a[0])


def eighth_chain(centre: Spot, first: Spot, last: Spot) -> List[Spot]:
    """A chain of eighth turns from one place to another, counterclockwise, and of what is left; equal places are a
    whole turn apart."""
    chain = [first]
    for spot in eighth_turns(centre, first):
        if cross(centre, chain[-1], last) > 0 and cross(centre, spot, last) <= dot(centre, last, last) // 64:
            break
        chain.append(spot)
    return [*chain, last]


def eighth_radius(centre: Spot, start: Spot) -> int:
    """More than an eighth turn leaves its chord by."""
    return (abs(start[0] - centre[0]) + abs(start[1] - centre[1])) // 12 + 8


def inset(corners: Corners, keeps: Sequence[int]) -> Optional[List[Spot]]:
    """Corners of an area within an outline, over `keeps` from each edge; None where none is found."""
    order = 1 if sum(cross((0, 0), a, b) for a, b in edges(corners)) > 0 else -1
    grid = Segments(edges(corners), max(keeps) // 2 + 1)
    for more in FURTHER:
        found = met([line for k in range(len(corners)) for line in moved(corners, keeps, k, order, more)])
        if (
            found
            and is_clear(found, grid, keeps)
            and odd_inside(corners, found[0])
            and not odd_inside(found, corners[0])
        ):
            return found
    return None


def moved(corners, keeps, k, order, more):
    """The lines that stand for an edge, each by a place, its way, how far it is moved to the left, times its length and
    2^20, and how long it is: the edge moved inwards, and with steps across, by more near ends where a neighbour is kept
    further off."""
    a, b, keep = corners[k], corners[(k + 1) % len(corners)], keeps[k]
    way, length = (b[0] - a[0], b[1] - a[1]), isqrt(dot(a, b, b) << 40)
    first, last = (max(keep, keeps[at % len(keeps)]) for at in (k - 1, k + 1))
    steps = [by + 2 * more if by > keep else 0 for by in (first, last)]
    line = lambda by, size: (a, way, order * (by + more) * length, size)
    if sum(steps) << 20 >= length:
        return [line(max(first, last), length >> 20)]
    across, at = (-way[1] * order, way[0] * order), lambda end, by: tuple(
        v + rounded(part * by << 20, length) for v, part in zip(end, way)
    )
    before = [line(first, steps[0]), (at(a, steps[0]), (-across[0], -across[1]), 0, 0)] if steps[0] else []
    behind = [(at(b, -steps[1]), across, 0, 0), line(last, steps[1])] if steps[1] else []
    return [*before, line(keep, (length >> 20) - sum(steps)), *behind]


def met(lines: List[Any]) -> Optional[List[Spot]]:
    """The corners where neighbours of a ring of lines meet. Of lines in a row that would run the other way then the
    shortest is left out."""
    for _ in range(ROUNDS):
        tips = [tip(lines[k - 1], lines[k]) for k in range(len(lines))]
        runs = [(q[0] - p[0]) * line[1][0] + (q[1] - p[1]) * line[1][1] > 0 for line, (p, q) in zip(lines, edges(tips))]
        if all(runs):
            return tips
        rows = [[*row] for _, row in groupby(range(len(lines)), runs.__getitem__)]
        out = {min(row, key=lambda k: lines[k][3]) for row in rows if not runs[row[0]]}
        lines = [line for k, line in enumerate(lines) if k not in out]
        if len(lines) < 3:
            break
    return None


def tip(one: Any, two: Any) -> Optional[Spot]:
    """Where two lines meet."""
    (a, v, left, _), (b, w, right, _) = one, two
    turn, left = v[0] * w[1] - v[1] * w[0], left + (((b[0] - a[0]) * v[1] - (b[1] - a[1]) * v[0]) << 20)
    if not turn:
        turn, to = w[0] ** 2 + w[1] ** 2, (-w[1] * right, w[0] * right)
    else:
        to = (left * w[0] - right * v[0], left * w[1] - right * v[1])
    return tuple([v + rounded(part if turn > 0 else -part, abs(turn) << 20) for v, part in zip(b, to)])


def is_clear(found: Corners, grid: Segments, keeps: Sequence[int]) -> bool:
    """Whether all edges are further from each segment than it is kept off."""
    most = max(keeps) + 1
    return not any(
        segments_within(a, b, *grid.segments[k], keeps[k]) for a, b in edges(found) for k in grid.near(a, b, most)
    )
