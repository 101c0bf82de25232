"""Whole places: segments between them, even-odd, and segments by cells."""
from typing import Dict, Iterator, List, Sequence, Set, Tuple

from .pieces import Box, Corners, Line, Spot


def cross(o: Spot, a: Spot, b: Spot) -> int:
    return (a[0] - o[0]) * (b[1] - o[1]) - (a[1] - o[1]) * (b[0] - o[0])


def dot(o: Spot, a: Spot, b: Spot) -> int:
    return (a[0] - o[0]) * (b[0] - o[0]) + (a[1] - o[1]) * (b[1] - o[1])


def edges(corners: Corners) -> List[Line]:
    return list(zip(corners, corners[1:] + corners[:1]))


def box_of_line(a: Spot, b: Spot, r: int) -> Box:
    """The box of all that is at most r from the segment from a to b: left, low, right, high."""
    return min(a[0], b[0]) - r, min(a[1], b[1]) - r, max(a[0], b[0]) + r, max(a[1], b[1]) + r


def point_within(p: Spot, a: Spot, b: Spot, r: int) -> bool:
    """Whether p is at most r from the segment from a to b."""
    dx, dy, px, py = b[0] - a[0], b[1] - a[1], p[0] - a[0], p[1] - a[1]
    along, length = px * dx + py * dy, dx * dx + dy * dy
    if along <= 0 or not length:
        return px * px + py * py <= r * r
    if along >= length:
        qx, qy = p[0] - b[0], p[1] - b[1]
        return qx * qx + qy * qy <= r * r
    turn = px * dy - py * dx
    return turn * turn <= r * r * length


def segments_cross(a: Spot, b: Spot, c: Spot, d: Spot) -> bool:
    """Whether two segments cross, each with ends strictly on both sides of the other."""
    return cross(a, b, c) * cross(a, b, d) < 0 and cross(c, d, a) * cross(c, d, b) < 0


def segments_within(a: Spot, b: Spot, c: Spot, d: Spot, r: int) -> bool:
    """Whether two segments come within r of each other: an end is within r of the other, or they cross."""
    return (
        point_within(a, c, d, r)
        or point_within(b, c, d, r)
        or point_within(c, a, b, r)
        or point_within(d, a, b, r)
        or segments_cross(a, b, c, d)
    )


def odd_inside(corners: Corners, p: Spot) -> bool:
    """Even-odd by a ray to the right."""
    odd, (px, py), (bx, by) = False, p, corners[-1]
    for x, y in corners:
        ax, ay, bx, by = bx, by, x, y
        if (ay > py) != (by > py):
            side = (bx - ax) * (py - ay) - (by - ay) * (px - ax)
            if (side > 0) == (by > ay):
                odd = not odd
    return odd


class Segments:
    """Segments by cells along them, at least so wide; asked for those that may come within r of another."""

    def __init__(self, segments: Sequence[Line], least: int = 1) -> None:
        self.segments = segments
        self.cells: Dict[Spot, List[int]] = {}
        lengths = sum(abs(a[0] - b[0]) + abs(a[1] - b[1]) for a, b in segments)
        self.step = max(least, 1 + lengths // (2 * max(1, len(segments))))
        for k, (a, b) in enumerate(segments):
            for cell in self.cells_of(a, b, 0):
                self.cells.setdefault(cell, []).append(k)

    def cells_of(self, a: Spot, b: Spot, r: int) -> Iterator[Spot]:
        """Column by column: where it is in a column, or within r of it."""
        s, ((ax, ay), (bx, by)) = self.step, (a, b) if a <= b else (b, a)
        for i in range((ax - r) // s, (bx + r) // s + 1):
            low, high = sorted((ay, by))
            if bx > ax:
                ends = [ay + (by - ay) * (x - ax) // (bx - ax) for x in (max(ax, i * s - r), min(bx, (i + 1) * s + r))]
                low, high = min(ends), max(ends) + 1
            for j in range((low - r) // s, (high + r) // s + 1):
                yield i, j

    def near(self, a: Spot, b: Spot, r: int) -> Set[int]:
        found: Set[int] = set()
        for cell in self.cells_of(a, b, r):
            found.update(self.cells.get(cell, ()))
        return found


class Rows:
    """Lines by rows of heights, so high that most lines lie in one or two: for rays along them."""

    def __init__(self, lines: Sequence[Line]) -> None:
        self.low = min(min(a[1], b[1]) for a, b in lines)
        high = max(max(a[1], b[1]) for a, b in lines)
        heights = sum(abs(a[1] - b[1]) for a, b in lines)
        self.step = 1 + max(high - self.low, 2 * heights) // len(lines)
        self.rows: Dict[int, List[Line]] = {}
        for line in lines:
            low, high = line[0][1], line[1][1]
            if low != high:
                low, high = (low, high) if low < high else (high, low)
                for row in range((low - self.low) // self.step, (high - self.low) // self.step + 1):
                    self.rows.setdefault(row, []).append(line)

    def at(self, y: int) -> Sequence[Line]:
        """The lines of a height's row; level ones are none."""
        return self.rows.get((y - self.low) // self.step, ())


class Bands:
    """The edges of a contour by bands across its longer side, for even-odd at places times 2^21."""

    def __init__(self, corners: Corners) -> None:
        spans = [(min(c[k] for c in corners), max(c[k] for c in corners)) for k in (0, 1)]
        self.turn = spans[0][1] - spans[0][0] > spans[1][1] - spans[1][0]
        around = edges([(y, x) for x, y in corners] if self.turn else corners)
        self.low, high = spans[0 if self.turn else 1]
        heights = sum(abs(a[1] - b[1]) for a, b in around)
        self.step = 1 + max((high - self.low) // len(corners), 2 * heights // len(corners))
        self.rows: Dict[int, List[Line]] = {}
        for a, b in around:
            if a[1] != b[1]:
                low, high = sorted((a[1], b[1]))
                for row in range((low - self.low) // self.step, (high - self.low) // self.step + 1):
                    self.rows.setdefault(row, []).append((a, b))

    def odd(self, px: int, py: int) -> bool:
        odd = False
        if self.turn:
            px, py = py, px
        for a, b in self.rows.get(((py >> 21) - self.low) // self.step, ()):
            ax, ay, bx, by = a[0] << 21, a[1] << 21, b[0] << 21, b[1] << 21
            if (ay > py) != (by > py) and (((bx - ax) * (py - ay) - (by - ay) * (px - ax)) > 0) == (by > ay):
                odd = not odd
        return odd


def place_beside(chain: Corners, outwards: bool) -> Spot:
    """A place half a u beside the middle of the longest edge of the chain, times 2^21: where its sliver lies."""
    p, q = max(zip(chain, chain[1:]), key=lambda e: dot(e[0], e[1], e[1]))
    normal = (q[1] - p[1], p[0] - q[0])  # away from the centre, since the chain runs counterclockwise
    if not outwards:
        normal = (-normal[0], -normal[1])
    most = max(abs(normal[0]), abs(normal[1]))
    x, y = ((p[k] + q[k] << 20) + (normal[k] << 20) // most for k in (0, 1))
    return x, y
