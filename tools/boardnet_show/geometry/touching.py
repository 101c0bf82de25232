"""Which pieces touch, exactly, over whole numbers: a second look at the copper that only says where, never whether."""
from typing import Dict, Iterator, List, Optional, Sequence, Set, Tuple

from . import box_grid, nearest_places
from .box_tree import Tree
from .pieces import Box, Line, Spot
from .segments import Rows, box_of_line, cross, point_within, segments_within
from .shapes import Shapes

FEW_EDGES = 24
FEW_LOOKS = 4_096  # pairs of lines that are compared one by one
Nearest = Tuple[float, nearest_places.Place, nearest_places.Place]  # a distance, squared, and its places
MOST_PAIRS = 100_000  # lines of two pieces that are all compared
AROUND = sorted(
    ((x, y) for x in range(-2, 3) for y in range(-2, 3)), key=lambda step: (step[0] ** 2 + step[1] ** 2, step)
)


def common(a: Box, b: Box) -> Optional[Box]:
    """The box that two boxes share, or None."""
    box = max(a[0], b[0]), max(a[1], b[1]), min(a[2], b[2]), min(a[3], b[3])
    return box if box[0] <= box[2] and box[1] <= box[3] else None


class Touching:
    """Answers on pairs of pieces; edges of areas are kept in trees."""

    def __init__(self, shapes: Shapes, spans: Sequence[Tuple[int, int]]) -> None:
        self.shapes, self.spans = shapes, spans
        self.edges: Dict[int, List[Line]] = {}
        self.trees: Dict[int, Tree] = {}
        self.rows: Dict[int, Rows] = {}
        self.box = shapes.box

    def lines(self, piece: int) -> List[Line]:
        """The lines of a piece: one of a capsule, the edges of an area."""
        if piece not in self.edges:
            places = self.shapes.places(piece)
            is_area = self.shapes.is_area(piece)
            self.edges[piece] = list(zip(places, places[1:] + places[:1])) if is_area else [(places[0], places[-1])]
        return self.edges[piece]

    def anchors(self, piece: int) -> Set[Spot]:
        """Where a capsule begins and ends, or the middle of an area, doubled."""
        if self.shapes.is_area(piece):
            left, low, right, high = self.box(piece)
            return {(left + right, low + high)}
        return {(2 * x, 2 * y) for x, y in self.shapes.places(piece)}

    def lines_near(self, piece: int, box: Box) -> List[Line]:
        """The lines of a piece whose boxes meet a box."""
        lines = self.lines(piece)
        if len(lines) <= FEW_EDGES:
            return [
                (p, q)
                for p, q in lines
                if max(p[0], q[0]) >= box[0]
                and min(p[0], q[0]) <= box[2]
                and max(p[1], q[1]) >= box[1]
                and min(p[1], q[1]) <= box[3]
            ]
        if piece not in self.trees:
            self.trees[piece] = Tree([box_of_line(p, q, 0) for p, q in lines])
        return [lines[k] for k in self.trees[piece].meeting(box)]

    def lines_across(self, piece: int, y: int) -> Sequence[Line]:
        """The lines of a piece of which some may have a height."""
        lines = self.lines(piece)
        if len(lines) <= FEW_EDGES:
            return lines
        if piece not in self.rows:
            self.rows[piece] = Rows(lines)
        return self.rows[piece].at(y)

    def is_inside(self, piece: int, place: Spot) -> bool:
        """Whether a place lies inside an area, by how many edges a ray to the right meets."""
        left, low, right, high = self.box(piece)
        x, y = place
        is_in = False
        if not (left <= x <= right and low <= y <= high):
            return False
        for (x1, y1), (x2, y2) in self.lines_across(piece, y):
            if (y1 > y) != (y2 > y) and (x1 >= x or x2 >= x):
                turn = cross((x1, y1), (x2, y2), place)
                is_in ^= (turn > 0) == (y2 > y1)
        return is_in

    def holds(self, piece: int, place: Spot) -> bool:
        """Whether a piece has a place."""
        if not self.shapes.is_area(piece):
            return point_within(place, *self.lines(piece)[0], self.shapes.radius[piece])
        is_on_edge = any(point_within(place, a, b, 0) for a, b in self.lines_near(piece, (*place, *place)))
        return is_on_edge or self.is_inside(piece, place)

    def touch(self, p: int, q: int) -> bool:
        """Whether two pieces share a place, and a layer."""
        if self.spans[p][0] > self.spans[q][1] or self.spans[q][0] > self.spans[p][1]:
            return False
        box = common(self.box(p), self.box(q))
        if not box:
            return False
        r = self.shapes.reach(p) + self.shapes.reach(q)
        if not self.shapes.is_area(p) and not self.shapes.is_area(q):
            return segments_within(*self.lines(p)[0], *self.lines(q)[0], r)
        wide = box[0] - r, box[1] - r, box[2] + r, box[3] + r
        if self.lines_touch(p, q, wide, r):
            return True
        return self.is_within(p, q) or self.is_within(q, p)

    def lines_touch(self, p: int, q: int, wide: Box, r: int) -> bool:
        """Whether lines of two pieces in a box come within r of each other: of many on both sides, each of the fewer
        with those near it."""
        ours, theirs = self.lines_near(p, wide), self.lines_near(q, wide)
        if len(ours) * len(theirs) <= FEW_LOOKS:
            return any(segments_within(a, b, c, d, r) for a, b in ours for c, d in theirs)
        few, other = (ours, q) if len(ours) <= len(theirs) else (theirs, p)
        return any(
            segments_within(a, b, c, d, r) for a, b in few for c, d in self.lines_near(other, box_of_line(a, b, r))
        )

    def is_within(self, inner: int, outer: int) -> bool:
        """Whether a piece has its first place inside an area."""
        return self.shapes.is_area(outer) and self.is_inside(outer, self.shapes.places(inner)[0])

    def pairs(self, pieces: Sequence[int]) -> Iterator[Tuple[int, int]]:
        """The pairs of these pieces that touch, each once."""
        for i, j in box_grid.pairs([self.box(piece) for piece in pieces]):
            if self.touch(pieces[j], pieces[i]):
                yield pieces[j], pieces[i]

    def touching_place(self, p: int, q: int) -> Spot:
        """A place in both of two touching pieces; where no whole one is found, in one of them and near the other."""
        box = common(self.box(p), self.box(q)) or self.box(p)  # they touch, so they share one
        for inner, outer in ((p, q), (q, p)):
            for x, y in self.shapes.places(inner)[:60]:
                if box[0] <= x <= box[2] and box[1] <= y <= box[3] and self.holds(outer, (x, y)):
                    return x, y
        r = self.shapes.reach(p), self.shapes.reach(q)
        squared, here, there = self.nearest_lines(p, q, box, sum(r))
        between = nearest_places.towards(here, there, squared**0.5 * r[0] / (sum(r) or 1), squared**0.5)
        return self.held((round(between[0]), round(between[1])), p, q)

    def nearest_lines(self, p: int, q: int, box: Box, r: int) -> Nearest:
        """How far apart lines of two touching pieces are, squared, and their nearest places: of all, or where there
        are many of the first that touch."""
        wide = box[0] - r, box[1] - r, box[2] + r, box[3] + r
        ours, theirs = self.lines_near(p, wide) or self.lines(p), self.lines_near(q, wide) or self.lines(q)
        if len(ours) * len(theirs) <= MOST_PAIRS:
            return min(nearest_places.between(a, b) for a in ours for b in theirs)
        for a in ours:
            for b in self.lines_near(q, box_of_line(*a, r)):
                if segments_within(*a, *b, r):
                    return nearest_places.between(a, b)
        return nearest_places.between(ours[0], theirs[0])

    def held(self, place: Spot, *pieces: int) -> Spot:
        """The whole place nearest to one that all pieces have; else that some have; else one of their own places."""
        x, y = place
        around = [(x + dx, y + dy) for dx, dy in AROUND]
        for wanted in (all, any):
            for spot in around:
                if wanted(self.holds(piece, spot) for piece in pieces):
                    return spot
        own = (spot for piece in pieces for spot in self.shapes.places(piece))
        return min(own, key=lambda spot: ((spot[0] - x) ** 2 + (spot[1] - y) ** 2, spot))

    def middle(self, piece: int) -> Spot:
        """The middle of a piece's box where the piece has it, else the nearest of its own places."""
        left, low, right, high = self.box(piece)
        return self.held(((left + right) // 2, (low + high) // 2), piece)
