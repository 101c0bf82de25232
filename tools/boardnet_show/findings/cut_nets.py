"""A net without what touches within some places: whether copper still joins two of its names. It says no only where
that is sure.

A touch of pieces of one name stays, wherever it is. A touch of two names, or of what could be either's, goes where all
of it lies within a place; a stroke that could be either's is parted where a place has its whole width.
"""
from typing import Dict, Iterator, List, Sequence, Set, Tuple

from boardnet_show.geometry import box_grid
from boardnet_show.geometry.segments import box_of_line, segments_within

from . import least_cuts
from .board import Board
from .meeting_places import Net

Spot = Tuple[int, int]
Line = Tuple[Spot, Spot]
# A place with its layer, and a radius, in u.
Disc = Tuple[Tuple[int, int, int], int]
Node = Tuple[int, int]
SURE = 10  # u: so much smaller a place is taken, and so much wider a line, for the rounding of both


def outside(line: Line, r: int, discs: Sequence[Disc]) -> List[Line]:
    """The parts of a line whose round of radius r is not all within one of the places."""
    (ax, ay), (bx, by) = line
    dx, dy, kept = bx - ax, by - ay, [(0.0, 1.0)]
    for (x, y, _), radius in discs:
        least, most = within((ax - x, ay - y), (dx, dy), radius - r - SURE)
        before = [(start, min(end, least)) for start, end in kept if start < least]
        kept = before + [(max(start, most), end) for start, end in kept if most < end and most < 2]
    return [(at(line, start), at(line, end)) for start, end in kept]


def at(line: Line, part: float) -> Spot:
    (ax, ay), (bx, by) = line
    return round(ax + part * (bx - ax)), round(ay + part * (by - ay))


def within(a: Spot, d: Spot, radius: int) -> Tuple[float, float]:
    """From where to where a line from a by d lies within a radius of the origin, as parts of it; else nothing of it,
    from 2 to 2."""
    squared, ahead, off = d[0] ** 2 + d[1] ** 2, a[0] * d[0] + a[1] * d[1], a[0] ** 2 + a[1] ** 2 - max(radius, 0) ** 2
    if radius <= 0 or squared == 0:
        return (0.0, 1.0) if radius > 0 and off <= 0 else (2.0, 2.0)
    under = ahead**2 - squared * off
    if under <= 0:
        return 2.0, 2.0
    root = under**0.5
    return max(0.0, (-ahead - root) / squared), min(1.0, (-ahead + root) / squared)


class Cut:
    """The copper of a net, as nodes: pieces, or parts of one that could be either name's."""

    def __init__(self, board: Board, net: int, discs: Sequence[Disc]) -> None:
        self.board, self.discs, self.pieces = board, discs, board.pieces_of[net]
        its = Net(board, net)
        self.meets = its.meets(least_cuts.Budget())
        self.count, self.sides = its.count, its.sides
        self.points = self.names_on(net)
        self.lines = {piece: self.parts(piece) for piece in self.pieces}

    def names_on(self, net: int) -> Dict[int, List[Tuple[Spot, str]]]:
        """For each piece the points on it, with their names; tied ones are one."""
        board, points = self.board, self.board.points_of[net]
        found: Dict[int, List[Tuple[Spot, str]]] = {}
        boxes = [board.touching.box(piece) for piece in self.pieces] + [board.spot(point) * 2 for point in points]
        for i, j in box_grid.pairs(boxes):
            i, j = max(i, j), min(i, j)
            if i >= len(self.pieces) > j:
                piece, point = self.pieces[j], points[i - len(self.pieces)]
                top, bottom = board.report.sources[piece][3:]
                if top <= board.layer(point) <= bottom and board.touching.holds(piece, board.spot(point)):
                    found.setdefault(piece, []).append((board.spot(point), board.side_of(board.name_of(point))))
        return found

    def discs_of(self, top: int, bottom: int) -> List[Disc]:
        return [disc for disc in self.discs if top == bottom == disc[0][2]]

    def radius(self, piece: int) -> int:
        return int(self.board.shapes.reach(piece))

    def parts(self, piece: int) -> List[List[Line]]:
        """The lines of each node of a piece: one node, or of a stroke that could be either's what lies on both sides
        of the places."""
        lines = self.board.touching.lines(piece)
        if piece in self.sides or self.board.shapes.is_area(piece):
            return [lines]
        left = outside(lines[0], self.radius(piece), self.discs_of(*self.board.report.sources[piece][3:]))
        return [[line] for line in left] or ([lines] if piece in self.points else [])

    def nodes(self) -> Iterator[Node]:
        yield from ((piece, k) for piece in self.pieces for k in range(len(self.lines[piece])))

    def may_touch(self, p: int, lines: Sequence[Line], other: Node) -> bool:
        """Whether some of these lines of a piece come as near to a node of another one as both are wide, or lie in
        it."""
        q, its = other[0], self.lines[other[0]][other[1]]
        touching, r = self.board.touching, self.radius(p) + self.radius(q) + SURE
        for a, b in lines:
            near = its if len(its) == 1 else touching.lines_near(q, box_of_line(a, b, r))
            if any(segments_within(a, b, c, d, r) for c, d in near):
                return True
            if self.board.shapes.is_area(q) and touching.is_inside(q, a):
                return True
        return False

    def is_joined(self, p: Node, q: Node) -> bool:
        """Whether two nodes of touching pieces may touch outside the places."""
        sides, sources = (self.sides.get(p[0]), self.sides.get(q[0])), self.board.report.sources
        lines = self.lines[p[0]][p[1]], self.lines[q[0]][q[1]]
        if sides[0] is not None and sides[0] == sides[1]:
            return True
        discs = self.discs_of(max(sources[p[0]][3], sources[q[0]][3]), min(sources[p[0]][4], sources[q[0]][4]))
        for (piece, _), its, other in ((p, lines[0], q), (q, lines[1], p)):
            left = [part for line in its for part in outside(line, self.radius(piece), discs)]
            if self.may_touch(piece, left, other):
                return True
        return False

    def homes(self) -> List[Set[Node]]:
        """The nodes that are joined."""
        home = {node: {node} for node in self.nodes()}
        for p, q in self.board.touching.pairs(self.pieces):
            for one in [(p, k) for k in range(len(self.lines[p]))]:
                for other in [(q, k) for k in range(len(self.lines[q]))]:
                    if home[one] is not home[other] and self.is_joined(one, other):
                        small, large = sorted((home[one], home[other]), key=len)
                        large |= small
                        home.update(dict.fromkeys(small, large))
        return list({id(its): its for its in home.values()}.values())

    def names_of(self, node: Node) -> Set[str]:
        """The names of the points on a node, or on its piece where it is not known on which part."""
        piece, number = node
        names = set()
        for spot, name in self.points.get(piece, ()):
            r = self.radius(piece)
            on = [
                k
                for k, lines in enumerate(self.lines[piece])
                if len(self.lines[piece]) == 1 or segments_within(*lines[0], spot, spot, r)
            ]
            if not on or number in on:
                names.add(name)
        return names

    def joins(self, home: Set[Node]) -> bool:
        """Whether joined nodes have points of two names, or copper of two."""
        names = set().union(*map(self.names_of, home))
        return len(names) > 1 or len({self.sides[piece] for piece, _ in home if piece in self.sides}) > 1

    def is_explained(self) -> bool:
        """Whether all places where the names meet are among these, and no copper that is left may join two names."""
        spots = [
            ((*meet.place, meet.layer), discs)
            for meet in self.meets
            for discs in [self.discs_of(meet.layer, meet.layer)]
        ]
        near = all(
            any((x - a) ** 2 + (y - b) ** 2 <= radius**2 for (a, b, _), radius in discs) for (x, y, _), discs in spots
        )
        return bool(self.meets) and self.count == len(self.meets) and near and not any(map(self.joins, self.homes()))
