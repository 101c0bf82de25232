"""Nets whose copper is closer than a distance, each pair with its least distance on a layer, exact to u and rounded
down.

The program's `gaps` names the pairs, so that none is missed; here is how far apart they are, and where, among all
pieces of both.
"""
import heapq
from collections import defaultdict
from math import inf
from typing import NamedTuple

from boardnet_show.base.statuses import Stop
from boardnet_show.findings import nearest_copper
from boardnet_show.formats.units import INCH, MM
from boardnet_show.geometry.box_tree import FAN, Tree, apart
from boardnet_show.geometry.distances import of_lines
from boardnet_show.geometry.segments import box_of_line

# How lengths may be written; the millimetre where none is.
UNITS = {"mm": MM, "mil": INCH // 1000, "in": INCH}
STEP = 1_000  # distances are told in tenths of a micrometre
MOST = 100_000_000  # 10 mm, the most that the program takes
FEW = 64  # so many pairs of lines are looked at one by one


class Spacing(NamedTuple):
    """Two nets on a layer: their distance, rounded down to u, its place, and the two pieces there."""

    layer: int
    nets: tuple
    distance: int
    place: tuple
    pieces: tuple

    def at_least(self):
        """The distance in u, rounded down to a tenth of a micrometre."""
        return self.distance // STEP * STEP

    def at_most(self):
        return (self.distance // STEP + 1) * STEP


def asked_width(text):
    """A width as u: a number of millimetres, or with its unit (`6mil`, `0.15mm`, `0.006in`); None where it is none that
    can be asked for."""
    unit = next((it for it in UNITS if text.endswith(it)), "")
    head, _, tail = text[: len(text) - len(unit)].partition(".")
    if not (head + tail).isascii() or not (head + tail).isdigit() or len(tail) > 7 or len(head) > 3:
        return None
    u, rest = divmod(int(head + tail) * UNITS.get(unit, MM), 10 ** len(tail))
    return u if not rest and u <= MOST else None


def asked_distance(text):
    """The same of a distance, which is over 0."""
    return asked_width(text) or None


def listed(program, package, u):
    """What the program's `gaps` lists at that distance, or at the next whole nanometre: (layer, low, high, first,
    second)."""
    answer = program.gaps(package, -(-u // 10))
    if answer.status not in (0, 1):
        raise Stop(answer.status, f"`gaps` says: {answer.line}")
    return [tuple(map(int, line.split(" ")[1:])) for line in answer.out.decode("ascii").split("\n")[1:] if line]


class Lines:
    """The lines of each net on each layer: (line, radius, piece), with their boxes, and a tree of those where there are
    many. In place of nets other groups may be given, as those of each piece."""

    def __init__(self, board, groups=None):
        self.board, self.pieces = board, board.pieces_of
        self.trees, self.found = {}, {}
        if groups is not None:
            self.pieces = defaultdict(list)
            for piece, its in groups.items():
                for group in its:
                    self.pieces[group].append(piece)

    def of(self, net, layer):
        key = net, layer
        if key not in self.found:
            reach, touching = self.board.shapes.reach, self.board.touching
            spans = touching.spans
            rows = [
                (line, reach(piece), piece)
                for piece in self.pieces[net]
                if spans[piece][0] <= layer <= spans[piece][1]
                for line in touching.lines(piece)
            ]
            boxes = [box_of_line(*line, r) for line, r, _ in rows]
            self.found[key] = rows, boxes
        return self.found[key]

    def tree(self, net, layer):
        key = net, layer
        if key not in self.trees:
            self.trees[key] = Tree(self.of(net, layer)[1])
        return self.trees[key]


def measured(a, b):
    """The distance of two lines with their radii, rounded down to u."""
    return of_lines(a[0], b[0]) - a[1] - b[1]


def least(lines, layer, low, high, most=None):
    """(distance, row, row) of the two nearest lines of two nets on a layer, which are at most so far apart where that
    is given."""
    (ours, our_boxes), (theirs, their_boxes) = lines.of(low, layer), lines.of(high, layer)
    if len(ours) * len(theirs) > FEW:
        return by_trees(lines.tree(low, layer), lines.tree(high, layer), ours, theirs, most)
    best = None
    for a, box in zip(ours, our_boxes):
        for b, other in zip(theirs, their_boxes):
            if best is None or apart(box, other) < best[0] * best[0]:
                found = measured(a, b)
                best = (found, a, b) if best is None or found < best[0] else best
    return best


def by_trees(first, second, ours, theirs, most):
    """The same by trees of boxes: what is not nearer than the nearest so far is not looked at."""
    tops, best = (len(first.levels) - 1, len(second.levels) - 1), None
    limit = inf if most is None else (most + 1) * (most + 1)
    heap = [(apart(first.levels[tops[0]][0], second.levels[tops[1]][0]), tops[0], 0, tops[1], 0)]
    while heap:
        squared, level, node, other_level, other = heapq.heappop(heap)
        if best is not None and squared >= limit:
            break
        if level == other_level == 0:
            one, two = ours[first.order[node]], theirs[second.order[other]]
            found = measured(one, two)
            if best is None or found < best[0]:
                best, limit = (found, one, two), found * found
        elif level >= other_level:
            for k, apart_by in nearer(first.levels[level - 1], node, second.levels[other_level][other], limit):
                heapq.heappush(heap, (apart_by, level - 1, k, other_level, other))
        else:
            for k, apart_by in nearer(second.levels[other_level - 1], other, first.levels[level][node], limit):
                heapq.heappush(heap, (apart_by, level, node, other_level - 1, k))
    return best


def nearer(boxes, node, box, limit):
    """Of the boxes below a node of a tree those that are nearer to a box than a limit, with how far they are,
    squared."""
    left, low, right, high = box
    found = []
    for k in range(node * FAN, min(node * FAN + FAN, len(boxes))):
        l, b, r, t = boxes[k]
        across = l - right if l > right else left - r if left > r else 0
        up = b - high if b > high else low - t if low > t else 0
        squared = across * across + up * up
        if squared < limit:
            found.append((k, squared))
    return found


def spacings(program, board, u):
    """The pairs of nets that are closer than u, in the order of layers and nets; and how many the program lists."""
    rows, lines, found = listed(program, board.package, u), Lines(board), []
    for layer, low, high, *_ in rows:
        distance, a, b = least(lines, layer, low, high, u + 10)  # the program lists by whole nanometres
        # What is rounded down to less than a whole number is less than it.
        if distance < u:
            place = nearest_copper.gap_of_lines(a[:2], b[:2], layer).place
            found.append(Spacing(layer, (low, high), max(distance, 0), place, (a[2], b[2])))
    return found, len(rows)
