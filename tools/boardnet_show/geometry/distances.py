"""How far apart lines and places are, exactly, over whole numbers: each distance is rounded down to u."""
from math import isqrt

from .pieces import Line, Spot
from .segments import segments_cross


def from_line(place: Spot, a: Spot, b: Spot) -> int:
    """The distance of a place from the line from a to b."""
    dx, dy, px, py = b[0] - a[0], b[1] - a[1], place[0] - a[0], place[1] - a[1]
    along, length = px * dx + py * dy, dx * dx + dy * dy
    if along <= 0 or not length:
        return isqrt(px * px + py * py)
    if along >= length:
        px, py = place[0] - b[0], place[1] - b[1]
        return isqrt(px * px + py * py)
    # The root of a fraction, rounded down, is that of the fraction rounded down.
    return isqrt((px * dy - py * dx) ** 2 // length)


def of_lines(first: Line, second: Line) -> int:
    """The distance of two lines, each of two places."""
    (a, b), (c, d) = first, second
    if a == b:
        return from_line(a, c, d)
    if c == d:
        return from_line(c, a, b)
    if segments_cross(a, b, c, d):
        return 0
    return min(from_line(c, a, b), from_line(d, a, b), from_line(a, c, d), from_line(b, c, d))
