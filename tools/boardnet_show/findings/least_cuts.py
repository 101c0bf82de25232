"""Where names part on one net: the fewest touches whose cutting sets the copper of a name apart from that of all
others.

A flow from the copper of one name to that of the others, one unit for each touch, finds them (the theorem of Ford and
Fulkerson). Touches in which the ends of two pieces lie at one place look meant and count more.
"""
from collections import deque
from typing import Callable, Collection, Container, Dict, Iterable, List, Optional, Sequence, Set, Tuple

# For each piece that a way came to the one before it, and how much flows along a touch.
Before = Dict[int, Optional[int]]
Flow = Dict[Tuple[int, int], int]

# How much a touch counts that looks meant, and how many units a name's cut may have.
MEANT, MOST_FLOW = 4, 64
# As many steps are made over all shorts of a board.
MOST_STEPS = 6_000_000


class Budget:
    """How many steps are left."""

    def __init__(self, steps: int = MOST_STEPS) -> None:
        self.left = steps

    def take(self, steps: int = 1) -> bool:
        self.left -= steps
        return self.left >= 0


class Graph:
    """Pieces of a net and how much each touch of two of them counts."""

    def __init__(self, pieces: Iterable[int]) -> None:
        self.near: Dict[int, Dict[int, int]] = {piece: {} for piece in pieces}

    def join(self, p: int, q: int, counts: int) -> None:
        self.near[p][q] = self.near[q][p] = counts


def path(
    graph: Graph, flow: Flow, starts: Iterable[int], is_end: Callable[[int], bool], budget: Budget
) -> Tuple[Before, Optional[int]]:
    """A shortest way with room on it, as the pieces that lead back, and its end; or all that is reached, and None."""
    before: Before = {piece: None for piece in starts}
    queue = deque(starts)
    while queue:
        piece = queue.popleft()
        for other, room in graph.near[piece].items():
            if other in before or room - flow.get((piece, other), 0) <= 0:
                continue
            before[other] = piece
            if is_end(other):
                return before, other
            queue.append(other)
        if not budget.take(len(graph.near[piece])):
            return before, None
    return before, None


def push(graph: Graph, flow: Flow, before: Before, end: int) -> int:
    """Sends what a way has room for along it, and says how much that is."""
    steps = []
    last = before[end]
    while last is not None:
        steps.append((last, end))
        end, last = last, before[last]
    amount = min(graph.near[p][q] - flow.get((p, q), 0) for p, q in steps)
    for p, q in steps:
        flow[p, q] = flow.get((p, q), 0) + amount
        flow[q, p] = -flow[p, q]
    return amount


def side_of(graph: Graph, starts: Sequence[int], is_end: Callable[[int], bool], budget: Budget) -> Optional[Set[int]]:
    """The least set of pieces round `starts` that as few touches as can be join to an end, or None where this was too
    much."""
    flow: Flow = {}
    sent = 0
    while True:
        before, end = path(graph, flow, starts, is_end, budget)
        if budget.left < 0 or sent > MOST_FLOW:
            return None
        if end is None:
            return set(before)
        sent += push(graph, flow, before, end)


def sides(graph: Graph, seeds: Dict[int, str], budget: Budget) -> Dict[int, str]:
    """Each piece's name, where a cut gives it one. `seeds` has the names of pieces that are known."""
    by_name: Dict[str, List[int]] = {}
    found: Dict[int, str] = {}
    for piece, name in seeds.items():
        by_name.setdefault(name, []).append(piece)
    for name, starts in by_name.items():
        side = side_of(graph, starts, lambda piece: seeds.get(piece, name) != name, budget)
        for piece in side or ():
            found.setdefault(piece, name)
    return found


def components(graph: Graph, pieces: Collection[int]) -> List[List[int]]:
    """The connected parts of some pieces."""
    left = set(pieces)
    found: List[List[int]] = []
    for start in pieces:
        if start not in left:
            continue
        left.discard(start)
        part, queue = [start], [start]
        while queue:
            for other in graph.near[queue.pop()]:
                if other in left:
                    left.discard(other)
                    part.append(other)
                    queue.append(other)
        found.append(sorted(part))
    return found


def way(graph: Graph, starts: Sequence[int], wanted: Container[int], allowed: Container[int]) -> List[int]:
    """A shortest chain from one of some pieces to one of the wanted, over allowed pieces; the first start alone where
    there is none."""
    before: Before = dict.fromkeys(starts)
    queue = deque(starts)
    while queue:
        piece = queue.popleft()
        if piece in wanted:
            chain, last = [piece], before[piece]
            while last is not None:
                chain.append(last)
                last = before[last]
            return chain[::-1]
        for other in graph.near[piece]:
            if other not in before and other in allowed:
                before[other] = piece
                queue.append(other)
    return [starts[0]]
