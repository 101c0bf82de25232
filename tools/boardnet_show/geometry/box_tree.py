"""A tree of boxes that never changes: which boxes meet one, and which two of two trees are nearest."""
import heapq
from typing import Any, Callable, List, Sequence, Tuple

from .pieces import Box

FAN = 16
# As many pairs of boxes are looked at in a search for the nearest two.
MOST_LOOKS = 200_000
Node = Tuple[int, int]  # level and number


def cover(boxes: Sequence[Box]) -> Box:
    """The least box round some boxes."""
    return (min(b[0] for b in boxes), min(b[1] for b in boxes), max(b[2] for b in boxes), max(b[3] for b in boxes))


def packed(boxes: Sequence[Box]) -> List[int]:
    """Numbers of boxes so that neighbours in the order are neighbours on the board: strips by x, in each by y."""
    order = sorted(range(len(boxes)), key=lambda k: boxes[k][0] + boxes[k][2])
    strip = FAN * max(1, int((len(boxes) / FAN) ** 0.5))
    for at in range(0, len(order), strip):
        order[at : at + strip] = sorted(order[at : at + strip], key=lambda k: boxes[k][1] + boxes[k][3])
    return order


def apart(a: Box, b: Box) -> int:
    """How far apart two boxes are, squared."""
    across, up = max(a[0] - b[2], b[0] - a[2], 0), max(a[1] - b[3], b[1] - a[3], 0)
    return across * across + up * up


class Tree:
    """`levels[0]` are the boxes in packed order, node k of a level covers the FAN nodes from k * FAN on of the one
    below."""

    def __init__(self, boxes: Sequence[Box]) -> None:
        self.order = packed(boxes) if len(boxes) > FAN else list(range(len(boxes)))
        self.levels = [[boxes[k] for k in self.order]]
        while len(self.levels[-1]) > 1:
            below = self.levels[-1]
            self.levels.append([cover(below[k : k + FAN]) for k in range(0, len(below), FAN)])

    def meeting(self, box: Box) -> List[int]:
        """The numbers of the boxes that meet a box."""
        left, low, right, high = box
        nodes: Sequence[int] = range(len(self.levels[-1]))
        for level in range(len(self.levels) - 1, -1, -1):
            row = self.levels[level]
            if level < len(self.levels) - 1:
                nodes = [k for node in nodes for k in range(node * FAN, min(node * FAN + FAN, len(row)))]
            nodes = [
                k for k in nodes if row[k][0] <= right and row[k][2] >= left and row[k][1] <= high and row[k][3] >= low
            ]
        return [self.order[k] for k in nodes]

    def children(self, level: int, node: int) -> List[Node]:
        return [(level - 1, k) for k in range(node * FAN, min(node * FAN + FAN, len(self.levels[level - 1])))]


def nearest(first: Tree, second: Tree, measure: Callable[[int, int], Any], best: Any = None) -> Any:
    """The least that `measure(i, j)` gives, a distance and more behind it, for box i of one tree and j of another.

    A distance is at least that of the boxes. What is not less than `best` is not looked at, and after MOST_LOOKS the
    answer is what was found so far."""

    def entry(a: Node, b: Node) -> Tuple[int, Node, Node]:
        return apart(first.levels[a[0]][a[1]], second.levels[b[0]][b[1]]), a, b

    heap = [entry((len(first.levels) - 1, 0), (len(second.levels) - 1, 0))]
    for _ in range(MOST_LOOKS):
        if not heap:
            break
        least, a, b = heapq.heappop(heap)
        if best is not None and least >= best[0] * abs(best[0]):
            break
        if a[0] == b[0] == 0:
            found = measure(first.order[a[1]], second.order[b[1]])
            best = found if best is None or found < best else best
        elif a[0] >= b[0]:
            for child in first.children(*a):
                heapq.heappush(heap, entry(child, b))
        else:
            for child in second.children(*b):
                heapq.heappush(heap, entry(a, child))
    return best
