"""Shapes in columns: capsules and areas, their places and boxes."""
from array import array
from typing import Iterable, List, Tuple

from .pieces import Area, Box, Capsule, Piece, Spot

# What stands in the column of radii for an area; `is_area` says so.
AREA = -1


class Shapes:
    """Shapes in order, in u: capsules with one or two places, and areas with their corners."""

    def __init__(self) -> None:
        self.radius, self.start = array("q"), array("q", [0])
        self.x, self.y = array("q"), array("q")
        self.boxes: List[Tuple[int, int, int, int]] = []

    def __len__(self) -> int:
        return len(self.radius)

    def add(self, radius: int, places: Iterable[Tuple[int, int]]) -> None:
        self.radius.append(radius)
        for x, y in places:
            self.x.append(x)
            self.y.append(y)
        self.start.append(len(self.x))

    def add_area(self, xs: List[int], ys: List[int]) -> None:
        self.radius.append(AREA)
        self.x.fromlist(xs)
        self.y.fromlist(ys)
        self.start.append(len(self.x))

    def add_all(self, radii: List[int], starts: List[int], xs: List[int], ys: List[int]) -> None:
        """Adds shapes that are in columns; each of `starts` is where the next one begins."""
        self.radius.fromlist(radii)
        self.start.fromlist(starts)
        self.x.fromlist(xs)
        self.y.fromlist(ys)

    def take(self, others: "Shapes", first: int, past: int) -> None:
        """Adds a range of other shapes, with their boxes where both are known."""
        a, b = others.start[first], others.start[past]
        if len(self.boxes) == len(self) and len(others.boxes) >= past:
            self.boxes += others.boxes[first:past]
        shift = len(self.x) - a
        self.radius += others.radius[first:past]
        self.start.extend(at + shift for at in others.start[first + 1 : past + 1])
        self.x += others.x[a:b]
        self.y += others.y[a:b]

    def has(self, piece: int, others: "Shapes", other: int) -> bool:
        """Whether a piece is the same as one of other shapes."""
        mine, its = slice(self.start[piece], self.start[piece + 1]), slice(others.start[other], others.start[other + 1])
        is_like = self.radius[piece] == others.radius[other]
        return is_like and self.x[mine] == others.x[its] and self.y[mine] == others.y[its]

    def is_area(self, piece: int) -> bool:
        return self.radius[piece] == AREA

    def reach(self, piece: int) -> int:
        """How far a piece reaches round its lines: a capsule's radius, and nothing round an area's edges."""
        return max(self.radius[piece], 0)

    def places(self, piece: int) -> List[Spot]:
        first, end = self.start[piece], self.start[piece + 1]
        if end - first == 1:
            return [(self.x[first], self.y[first])]
        return list(zip(self.x[first:end], self.y[first:end]))

    def solid(self, piece: int) -> Piece:
        """A piece as bounds have it."""
        return Area(self.places(piece)) if self.is_area(piece) else self.capsule(piece)

    def capsule(self, piece: int) -> Capsule:
        """One that is no area."""
        places = self.places(piece)
        return Capsule(places[0], places[-1], self.radius[piece])

    def is_spot(self, piece: int) -> bool:
        """Whether it is a capsule of one place, as of a round pad."""
        return self.start[piece + 1] - self.start[piece] == 1 and self.radius[piece] >= 0

    def form(self, piece: int, x: int, y: int) -> Tuple[int, Tuple[int, ...], Tuple[int, ...]]:
        """The radius and the places beside (x, y): pieces that are alike have the same."""
        a, b = self.start[piece], self.start[piece + 1]
        return self.radius[piece], tuple([v - x for v in self.x[a:b]]), tuple([w - y for w in self.y[a:b]])

    def first(self, piece: int) -> Spot:
        """The first place of a piece."""
        return self.x[self.start[piece]], self.y[self.start[piece]]

    def box(self, piece: int) -> Box:
        """The box round a piece: left, low, right, high."""
        return self.boxes[piece] if piece < len(self.boxes) else self.all_boxes()[piece]

    def all_boxes(self) -> List[Box]:
        """The boxes of all pieces, found once."""
        if len(self.boxes) < len(self):
            self.boxes += self.boxes_from(len(self.boxes))
        return self.boxes

    def boxes_from(self, first: int) -> List[Box]:
        """The boxes of all pieces from one on."""
        found = []
        for r, a, b in zip(self.radius[first:], self.start[first:], self.start[first + 1 :]):
            if b - a == 1:
                x, y = self.x[a], self.y[a]
                found.append((x - r, y - r, x + r, y + r))
            elif r >= 0:
                x, y, u, v = self.x[a], self.y[a], self.x[b - 1], self.y[b - 1]
                (left, right), (low, high) = (x, u) if x < u else (u, x), (y, v) if y < v else (v, y)
                found.append((left - r, low - r, right + r, high + r))
            else:
                xs, ys = self.x[a:b], self.y[a:b]
                found.append((min(xs), min(ys), max(xs), max(ys)))
        return found
