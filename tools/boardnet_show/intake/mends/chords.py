"""A long closed contour in several of exactly the same copper: each cut goes along a chord between two of its corners.

Copper is what a contour encloses by even and odd, with its edges. A chord parts the edges into two runs, and with it
each run is a contour. Both together are the first one's copper where

- the chord meets no edge but at its two corners, and its middle lies in the copper;
- no place lies in both parts.

Chords are diagonals that a sweep over the corners finds, as many as triangles have that fill the copper. Of those the
ones are tried that part the edges most evenly: where triangles fill a contour that does not cross itself, one leaves
each part a third of the edges. All is reckoned in whole numbers and fractions. What the tests do not allow is not cut
along: the contour stays."""
from heapq import nsmallest
from itertools import count, product
from math import gcd
from typing import Iterator, List, Optional, Sequence, Tuple

from boardnet_show.formats.gerber_machine import MOST_EDGES
from boardnet_show.geometry.contour_sweep import ContourSweep, Corner, Crossed

TRIED = 60  # chords of a contour that are tried
OF_CORNER = 6  # corners at one place from which a chord is tried
LEAST = 20  # a part has at least one of so many of the edges
MOST_PARTS = 24
ON_A_SIDE = 100  # places of a long edge at which a chord may end, too
FRESH = -1  # the number of such a place where no chord ends yet
Part = List[Tuple[Corner, Optional[int]]]


def cut(corners: Sequence[Corner]) -> Optional[List[Part]]:
    """Contours of at most as many edges as a contour may have: each a list of a place and its corner's number, None
    for a place on an edge. The first has corner 0. None where no chord is found."""
    waiting: List[Part] = [bare(corners)]
    done: List[Part] = []
    while waiting:
        part = waiting.pop()
        if len(part) <= MOST_EDGES:
            done.append(part)
            continue
        finer = refined(part)
        ends = parted([spot for spot, _ in finer])
        if ends is None or len(waiting) + len(done) > MOST_PARTS:
            return None
        i, j = ends
        kept = [(spot, None if k in ends and number == FRESH else number) for k, (spot, number) in enumerate(finer)]
        waiting += [[it for it in half if it[1] != FRESH] for half in (kept[i : j + 1], kept[j:] + kept[: i + 1])]
    return in_order(done)


def bare(corners: Sequence[Corner]) -> Part:
    """The corners with their numbers, without those that are the same as the one before."""
    kept: Part = [(spot, k) for k, spot, before in zip(count(), corners, [None, *corners]) if spot != before]
    while len(kept) > 1 and kept[-1][0] == corners[0]:
        kept.pop()
    return kept


def refined(part: Part) -> Part:
    """A contour with some whole places of its long edges: a place on an edge changes no copper, and a chord may end
    there, too."""
    xs, ys = [x for (x, _), _ in part], [y for (_, y), _ in part]
    every = max(max(xs) - min(xs), max(ys) - min(ys)) // ON_A_SIDE + 1
    finer, done = [], 0
    for k in sorted({k for values in (xs, ys) for k in far(values, 2 * every)}):
        after = (k + 1) % len(part)
        new = along(xs[k], ys[k], xs[after] - xs[k], ys[after] - ys[k], every)
        finer += [*part[done : k + 1], *((spot, FRESH) for spot in new)]
        done = k + 1
    return finer + part[done:]


def far(values: List[int], most: int) -> List[int]:
    """The numbers of values whose next one, round and round, is further away."""
    steps = zip(count(), values, values[1:] + values[:1])
    return [k for k, value, after in steps if not -most <= after - value <= most]


def along(x: int, y: int, dx: int, dy: int, every: int) -> List[Corner]:
    """Whole places of an edge, about so far apart."""
    steps = gcd(dx, dy)
    stride = steps * every // max(abs(dx), abs(dy)) + 1
    return [(x + dx // steps * at, y + dy // steps * at) for at in range(stride, steps, stride)]


def in_order(parts: List[Part]) -> List[Part]:
    """First the part that has corner 0, which then begins with it."""
    first = next(part for part in parts if any(number == 0 for _, number in part))
    start = next(at for at, (_, number) in enumerate(first) if number == 0)
    return [first[start:] + first[:start], *(part for part in parts if part is not first)]


def parted(corners: List[Corner]) -> Optional[Tuple[int, int]]:
    """The two corners of a chord that parts a contour, the first one first, or None."""
    n = len(corners)
    try:
        sweep = ContourSweep(corners, max(2, n // LEAST))
    except Crossed:
        return None
    for one, other in nsmallest(TRIED, sweep.found, key=lambda pair: abs(2 * abs(pair[0] - pair[1]) - n)):
        if is_free(corners, one, other) and is_copper(corners, one, other):
            for i, j in between(sweep.same.get(one, [one]), sweep.same.get(other, [other]), sweep.least, n):
                if sweep.lie_apart(i, j):
                    return i, j
    return None


def between(ones: List[int], others: List[int], least: int, n: int) -> Iterator[Tuple[int, int]]:
    """The chords from one place to another, of which each may have several corners: the most even one first."""
    pairs = ((min(pair), max(pair)) for pair in product(ones[:OF_CORNER], others[:OF_CORNER]))
    kept = [(i, j) for i, j in pairs if least <= j - i <= n - least]
    yield from sorted(kept, key=lambda pair: abs(2 * (pair[1] - pair[0]) - n))


def is_free(corners: List[Corner], i: int, j: int) -> bool:
    """Whether a chord meets no edge but at its two corners."""
    a, b = corners[i], corners[j]
    left, right, low, high = min(a[0], b[0]), max(a[0], b[0]), min(a[1], b[1]), max(a[1], b[1])
    return not any(
        is_met(a, b, c, d)
        for c, d in zip(corners, corners[1:] + corners[:1])
        if (c[0] <= right or d[0] <= right)
        and (c[0] >= left or d[0] >= left)
        and (c[1] <= high or d[1] <= high)
        and (c[1] >= low or d[1] >= low)
    )


def is_met(a: Corner, b: Corner, c: Corner, d: Corner) -> bool:
    """Whether an edge cd has a place of a chord ab between its ends."""
    to_c, to_d = side(a, b, c), side(a, b, d)
    if to_c == to_d == 0:
        return max(min(a, b), min(c, d)) < min(max(a, b), max(c, d))
    if to_c == 0 or to_d == 0:
        return min(a, b) < (d if to_c else c) < max(a, b)
    to_a, to_b = side(c, d, a), side(c, d, b)
    return (to_c > 0) != (to_d > 0) and to_a != 0 and to_b != 0 and (to_a > 0) != (to_b > 0)


def side(a: Corner, b: Corner, p: Corner) -> int:
    return (b[0] - a[0]) * (p[1] - a[1]) - (b[1] - a[1]) * (p[0] - a[0])


def is_copper(corners: List[Corner], i: int, j: int) -> bool:
    """Whether the middle of a chord that meets no edge lies in the copper: an odd number of edges lies left of it."""
    x, y = corners[i][0] + corners[j][0], corners[i][1] + corners[j][1]
    count_left = 0
    for (x1, y1), (x2, y2) in zip(corners, corners[1:] + corners[:1]):
        if (2 * y1 <= y) != (2 * y2 <= y):
            turn = (x - 2 * x1) * (y2 - y1) - (y - 2 * y1) * (x2 - x1)
            count_left += (turn > 0) == (y2 > y1)
    return count_left % 2 == 1
