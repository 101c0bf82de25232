"""Which of many boxes meet, in about as many steps as there are answers: small boxes by squares of a grid, the others
by a tree."""
from collections import defaultdict
from typing import DefaultDict, Iterator, List, Sequence, Tuple

from .box_tree import Tree
from .pieces import Box, Spot

# A box over more squares than this is asked of the tree.
MOST_SQUARES = 40
FEW = 24
Pair = Tuple[int, int]


def meet(a: Box, b: Box) -> bool:
    return a[0] <= b[2] and b[0] <= a[2] and a[1] <= b[3] and b[1] <= a[3]


def side_of(boxes: Sequence[Box]) -> int:
    """The side of squares of which most boxes lie in one to four."""
    sizes = sorted(max(b[2] - b[0], b[3] - b[1]) for b in boxes)
    return max(1, sizes[len(sizes) * 3 // 4] + 1) if sizes else 1


def pairs(boxes: Sequence[Box]) -> List[Pair]:
    """The pairs (i, j) with j < i of boxes that meet."""
    if len(boxes) <= FEW:
        return [(i, j) for i in range(len(boxes)) for j in range(i) if meet(boxes[i], boxes[j])]
    size = side_of(boxes)
    small: List[int] = []
    large: List[int] = []
    for k, box in enumerate(boxes):
        squares = ((box[2] // size) - (box[0] // size) + 1) * ((box[3] // size) - (box[1] // size) + 1)
        (small if squares <= MOST_SQUARES else large).append(k)
    return pairs_of_large(boxes, large) + pairs_of_small(boxes, small, size)


def holding(boxes: Sequence[Box], spots: Sequence[Spot]) -> Iterator[Pair]:
    """The pairs (box, spot) of a box that has a spot, in the order of the boxes and then of the spots."""
    tree, size = None, side_of(boxes)
    squares = defaultdict(list)
    for k, (x, y) in enumerate(spots):
        squares[x // size, y // size].append(k)
    for i, box in enumerate(boxes):
        left, low, right, high = (v // size for v in box)
        if (right - left + 1) * (high - low + 1) <= MOST_SQUARES:
            near = sorted(
                k
                for across in range(left, right + 1)
                for up in range(low, high + 1)
                for k in squares.get((across, up), ())
            )
        else:
            tree = tree or Tree([spot * 2 for spot in spots])
            near = sorted(tree.meeting(box))
        yield from ((i, k) for k in near if box[0] <= spots[k][0] <= box[2] and box[1] <= spots[k][1] <= box[3])


def pairs_of_large(boxes: Sequence[Box], large: List[int]) -> List[Pair]:
    """The pairs with a large box in them."""
    if not large:
        return []
    tree, is_large, found = Tree(boxes), set(large), []
    for k in large:
        found += [(max(j, k), min(j, k)) for j in tree.meeting(boxes[k]) if j < k or j > k and j not in is_large]
    return found


def pairs_of_small(boxes: Sequence[Box], small: List[int], size: int) -> List[Pair]:
    """The pairs of small boxes: each is found in the square of the common box's lower left corner."""
    squares = defaultdict(list)
    for k in small:
        left, low, right, high = boxes[k]
        for across in range(left // size, right // size + 1):
            for up in range(low // size, high // size + 1):
                squares[across, up].append(k)
    found = []
    for square, members in squares.items():
        for at, i in enumerate(members):
            a = boxes[i]
            for j in members[:at]:
                b = boxes[j]
                if (
                    a[0] <= b[2]
                    and b[0] <= a[2]
                    and a[1] <= b[3]
                    and b[1] <= a[3]
                    and (max(a[0], b[0]) // size, max(a[1], b[1]) // size) == square
                ):
                    found.append((i, j))
    return found
