"""Where straight lines are nearest, in floating point: for marks alone."""
from typing import Optional, Tuple

from .pieces import Line, Spot

Place = Tuple[float, float]


def nearest_on(line: Line, place: Spot) -> Place:
    """The place of a line that is nearest to a place."""
    (x1, y1), (x2, y2) = line
    length = (x2 - x1) ** 2 + (y2 - y1) ** 2
    t = 0 if not length else min(1, max(0, ((place[0] - x1) * (x2 - x1) + (place[1] - y1) * (y2 - y1)) / length))
    return x1 + t * (x2 - x1), y1 + t * (y2 - y1)


def crossing(first: Line, second: Line) -> Optional[Place]:
    """The place where two lines cross, or None."""
    (a, b), (c, d) = first, second
    ux, uy, vx, vy = b[0] - a[0], b[1] - a[1], d[0] - c[0], d[1] - c[1]
    turn = ux * vy - uy * vx
    if not turn:
        return None
    s, t = ((c[0] - a[0]) * vy - (c[1] - a[1]) * vx) / turn, ((c[0] - a[0]) * uy - (c[1] - a[1]) * ux) / turn
    return (a[0] + s * ux, a[1] + s * uy) if 0 <= s <= 1 and 0 <= t <= 1 else None


def between(first: Line, second: Line) -> Tuple[float, Place, Place]:
    """How far apart two lines are, squared, and their nearest places."""
    cross = crossing(first, second)
    if cross:
        return 0, cross, cross
    found = []
    sides = ((first[0], second, False), (first[1], second, False), (second[0], first, True), (second[1], first, True))
    for place, line, is_turned in sides:
        foot = nearest_on(line, place)
        squared = (foot[0] - place[0]) ** 2 + (foot[1] - place[1]) ** 2
        found.append((squared, foot, place) if is_turned else (squared, place, foot))
    return min(found)


def towards(place: Place, other: Place, by: float, length: float) -> Place:
    """The place that lies `by` from one place towards another, which is `length` away."""
    return place[0] + (other[0] - place[0]) * by / (length or 1), place[1] + (other[1] - place[1]) * by / (length or 1)


def middle(a: Place, b: Place) -> Spot:
    return round((a[0] + b[0]) / 2), round((a[1] + b[1]) / 2)
