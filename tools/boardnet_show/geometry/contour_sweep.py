"""A closed contour by a sweep over its corners: diagonals that lie in its copper, and of a diagonal whether no place
lies in both of its parts.

Copper is what a contour encloses by even and odd. A line goes upwards over the corners, at the same height from left
to right. On it the edges have one order; edges that follow one another upwards are a strand. Right of each strand is
a gap, and every second gap is copper.

Where a corner meets no other strand, its own goes on with another edge. All else that happens on the line, also
corners that touch an edge and edges that cross, is done place by place: the strands that come up to a place go, and
others start there, in the order of their directions. Each of these has a number, and what lies left of it is noted:
so what covers a gap can be reckoned for any two parts of the edges, strand by strand."""
from fractions import Fraction
from functools import cmp_to_key
from heapq import heappop, heappush
from math import inf
from typing import Any, Dict, List, NamedTuple, Sequence, Tuple

from .visible_chains import Chain, Node

Corner = Tuple[int, int]
MOST_CROSSINGS = 2_000


class Crossed(Exception):
    """A contour with so many crossings that it is not looked at further, or one whose sweep does not close."""


class Strand:
    """Edges that follow one another upwards, by the one on the line, and the gap right of it.

    The edge's number is that of its first corner along the contour, by which it goes `up` or down; `top` is the
    corner at its upper end."""

    __slots__ = (
        "x1",
        "y1",
        "x2",
        "y2",
        "dx",
        "dy",
        "low",
        "high",
        "edge",
        "up",
        "top",
        "number",
        "odd",
        "before",
        "after",
        "chain",
    )

    x1: Any
    y1: Any
    x2: Any
    y2: Any
    dx: Any
    dy: Any
    low: Any
    high: Any
    before: "Strand"
    after: "Strand"
    chain: Chain

    def __init__(self, edge: int, up: bool, top: int) -> None:
        self.edge, self.up, self.top, self.number, self.odd = edge, up, top, -1, False

    def reach(self, x1: Any, y1: Any, x2: Any, y2: Any) -> None:
        self.x1, self.y1, self.x2, self.y2, self.dx, self.dy = x1, y1, x2, y2, x2 - x1, y2 - y1
        self.low, self.high = (x1, x2) if x1 < x2 else (x2, x1)

    def side(self, x: Any, y: Any) -> Any:
        """Over 0 for a place right of the edge, 0 for one on its line."""
        return (x - self.x1) * self.dy - (y - self.y1) * self.dx


class Event(NamedTuple):
    """What happens at a place: the strand left of it with its edge then, and the numbers of the new strands."""

    y: Any
    x: Any
    left: int
    edge: int
    first: int
    past: int


def border(x: float) -> Strand:
    """What stands left or right of all strands."""
    made = Strand(-1, True, -1)
    made.x1 = made.x2 = made.low = made.high = x
    made.before = made.after = made
    return made


class ContourSweep:
    """`corners` are closed by an edge from the last to the first; none is the same as the next one. `found` are the
    pairs of corners that are diagonals, of which each part has at least `least` edges. Raises Crossed."""

    def __init__(self, corners: Sequence[Corner], least: int) -> None:
        self.n, self.least = len(corners), least
        self.xs, self.ys = [x for x, _ in corners], [y for _, y in corners]
        xs, ys = self.xs + self.xs[:1], self.ys + self.ys[:1]
        self.rises = [(y, x) < (y2, x2) for x, y, x2, y2 in zip(xs, ys, xs[1:], ys[1:])]
        # Of strands along one line the one with copper on its left stands first: a contour that goes round
        # counterclockwise goes up there.
        self.turn = 1 if sum(x * y2 - x2 * y for x, y, x2, y2 in zip(xs, ys, xs[1:], ys[1:])) > 0 else -1
        self.found: List[Tuple[int, int]] = []
        self.events: List[Event] = []
        self.edges: List[int] = []  # by number, the edge with which a strand starts
        self.flat: List[bool] = []  # whether the next strand lies along it
        self.odd: List[bool] = []  # whether the gap right of it is copper
        self.passed = [-1] * self.n  # by corner, the strand that goes on there with another edge
        self.same: Dict[int, List[int]] = {}  # by corner, all at its place where there are several
        self.left, self.right, self.crossings = border(-inf), border(inf), 0
        self.tops = [self.left] * self.n  # by corner, the strand whose edge comes up to it
        self.status: List[Strand] = []
        self.heap: List[Tuple[Any, Any]] = []
        self.sweep()

    def sweep(self) -> None:
        xs, ys, rises, heap = self.xs, self.ys, self.rises, self.heap
        order, at = sorted(range(self.n), key=lambda k: (ys[k], xs[k])), 0
        while at < self.n:
            k = order[at]
            x, y = xs[k], ys[k]
            while heap and heap[0] < (y, x):
                self.arrive(heap[0][1], heap[0][0], [])
            first, at = at, at + 1
            while at < self.n and xs[order[at]] == x and ys[order[at]] == y:
                at += 1
            if at > first + 1:
                here = order[first:at]
                self.same.update((each, here) for each in here)
                self.arrive(x, y, here)
            elif rises[k] != rises[k - 1] or not self.go_on(k, x, y):
                self.arrive(x, y, [k])

    def diagonal(self, k: int, m: int) -> None:
        if k >= 0 and m >= 0 and self.least <= abs(k - m) <= self.n - self.least:
            self.found.append((k, m))

    # ---- a corner of one strand

    def go_on(self, k: int, x: int, y: int) -> bool:
        """The strand of a corner goes on with another edge; False where another one is met there."""
        s = self.tops[k]
        a, b = s.before, s.after
        if (
            a.high >= x
            and (x - a.x1) * a.dy <= (y - a.y1) * a.dx
            or b.low <= x
            and (x - b.x1) * b.dy >= (y - b.y1) * b.dx
        ):
            return False
        self.passed[k] = s.number
        if s.odd:
            s.chain.left_end(Node(x, y, k), self.diagonal)
        else:
            a.chain.right_end(Node(x, y, k), self.diagonal)
        if s.up:
            s.edge, top = k, k + 1 if k + 1 < self.n else 0
        else:
            s.edge = top = k - 1 if k else self.n - 1
        s.top, self.tops[top] = top, s
        s.reach(x, y, self.xs[top], self.ys[top])
        if a.high >= s.low:
            self.meet(a, s)
        if b.low <= s.high:
            self.meet(s, b)
        return True

    def meet(self, a: Strand, b: Strand) -> None:
        """Notes where neighbours cross."""
        if a is self.left or b is self.right:
            return
        if (a.y2, a.x2) < (b.y2, b.x2):
            if b.side(a.x2, a.y2) <= 0:
                return
        elif (a.y2, a.x2) == (b.y2, b.x2) or a.side(b.x2, b.y2) >= 0:
            return
        self.crossings += 1
        if self.crossings > MOST_CROSSINGS:
            raise Crossed
        low = b.side(a.x1, a.y1)
        part = Fraction(low, low - b.side(a.x2, a.y2))
        heappush(self.heap, (a.y1 + part * a.dy, a.x1 + part * a.dx))

    # ---- all else

    def arrive(self, x: Any, y: Any, corners: List[int]) -> None:
        """What comes up to a place goes, and what starts there comes."""
        while self.heap and self.heap[0] == (y, x):
            heappop(self.heap)
        status = self.status
        i = j = self.find(x, y)
        while j < len(status) and status[j].side(x, y) == 0:
            j += 1
        a, old, b = status[i - 1] if i else self.left, status[i:j], status[j] if j < len(status) else self.right
        new = [s for s in old if s.x2 != x or s.y2 != y]
        for k in corners:
            before, after = k - 1 if k else self.n - 1, k + 1 if k + 1 < self.n else 0
            new += [self.started(k, after, k, True)] if self.rises[k] else []
            new += [] if self.rises[before] else [self.started(k, before, before, False)]
        if len(new) > 1:
            new.sort(key=cmp_to_key(self.order))
        first = len(self.edges)
        self.events.append(Event(y, x, a.number, a.edge, first, first + len(new)))
        status[i:j] = new
        self.chains(x, y, a, old, new)
        before_it = a
        for k, s in enumerate(new):
            before_it.after, s.before, s.number = s, before_it, first + k
            self.edges.append(s.edge)
            self.odd.append(s.odd)
            self.flat.append(k + 1 < len(new) and s.dx * new[k + 1].dy == s.dy * new[k + 1].dx)
            before_it = s
        before_it.after, b.before = b, before_it
        self.meet(a, a.after)
        for s in new:
            self.meet(s, s.after)

    def order(self, one: Strand, other: Strand) -> int:
        """Below 0 where the first strand is left of the other one above their place."""
        turn = one.dx * other.dy - one.dy * other.dx
        return (turn > 0) - (turn < 0) or self.turn * (other.up - one.up)

    def find(self, x: Any, y: Any) -> int:
        """The first strand that is not left of a place."""
        status, low, high = self.status, 0, len(self.status)
        while low < high:
            middle = (low + high) // 2
            s = status[middle]
            if s.high < x or s.low <= x and (x - s.x1) * s.dy > (y - s.y1) * s.dx:
                low = middle + 1
            else:
                high = middle
        return low

    def started(self, k: int, top: int, edge: int, up: bool) -> Strand:
        """A strand from a corner up to another one."""
        s = self.tops[top] = Strand(edge, up, top)
        s.reach(self.xs[k], self.ys[k], self.xs[top], self.ys[top])
        return s

    def chains(self, x: Any, y: Any, a: Strand, old: List[Strand], new: List[Strand]) -> None:
        """The gaps below a place end there or get a corner; the new ones start."""
        for s in old[:-1]:
            if s.odd:
                s.chain.left_end(self.node(x, y, s), self.diagonal)
        last = old[-1] if old else a
        is_odd, odd = last.odd, a.odd
        chain = last.chain if is_odd else None
        if not old:
            chain = a.chain.split(self.node(x, y, new[0]), self.diagonal) if odd else None
        else:
            # An edge that goes on without another one on that side of it has no corner there.
            if odd and not (new and new[0] is old[0]):
                a.chain.right_end(self.node(x, y, old[0], *new[:1]), self.diagonal)
            if chain and not (new and new[-1] is last):
                chain.left_end(self.node(x, y, last, *new[-1:]), self.diagonal)
            if chain and odd and not new:
                a.chain.join(chain)
        for s in new:
            odd = s.odd = not odd
            if odd:
                s.chain = Chain(self.node(x, y, s))
        if odd != is_odd:
            raise Crossed
        if new and chain:
            new[-1].chain = chain

    def node(self, x: Any, y: Any, *strands: Strand) -> Node:
        """A place by the corner that one of some strands has there."""
        for s in strands:
            if s.x2 == x and s.y2 == y:
                return Node(x, y, s.top)
            if s.x1 == x and s.y1 == y:
                return Node(x, y, s.edge if s.up else (s.edge + 1) % self.n)
        return Node(x, y, -1)

    # ---- the parts of a chord

    def lie_apart(self, i: int, j: int) -> bool:
        """Whether no place lies in both parts of a chord from corner i to a later corner j, which lies in the copper
        and meets no edge between its ends: no gap but one without width is covered by the edges of both."""
        chord = Strand(-1, True, -1)
        (y1, x1), (y2, x2) = ends = sorted([(self.ys[i], self.xs[i]), (self.ys[j], self.xs[j])])
        chord.reach(x1, y1, x2, y2)
        # Beside a strand that a chord meets on its right the cover changes there; it does so in copper, which one
        # part has.
        changes = [
            (number, (self.ys[k], self.xs[k]))
            for k, number in ((k, self.passed[k]) for k in (i, j))
            if number >= 0 and self.odd[number]
        ]
        changed = {number for number, _ in changes}
        covers: List[int] = []
        for event in self.events:
            cover = covers[event.left] if event.left >= 0 else 0
            if event.left in changed:
                cover ^= 3 * (sum(number == event.left and spot < event[:2] for number, spot in changes) & 1)
            starts = False
            if ends[0] <= event[:2] < ends[1]:
                starts = ends[0] == event[:2]
                is_left = not starts and chord.side(event.x, event.y) > 0
                if is_left and (event.edge < 0 or self.is_left_of(event.edge, chord)):
                    cover ^= 3
            for number in range(event.first, event.past):
                edge = self.edges[number]
                if starts and self.is_right(edge, chord):
                    cover, starts = cover ^ 3, False
                cover ^= 1 if i <= edge < j else 2
                if cover == 3 and not self.flat[number]:
                    return False
                covers.append(cover)
        return True

    def ends(self, edge: int) -> List[Tuple[int, int]]:
        after = (edge + 1) % self.n
        return sorted([(self.ys[edge], self.xs[edge]), (self.ys[after], self.xs[after])])

    def is_right(self, edge: int, chord: Strand) -> bool:
        """Whether an edge that has the chord's lower end goes up right of it."""
        (_, _), (y, x) = self.ends(edge)
        return bool(chord.side(x, y) > 0)

    def is_left_of(self, edge: int, chord: Strand) -> bool:
        """Whether an edge on the same line as a chord is left of it."""
        (y, x), (y2, x2) = self.ends(edge)
        sides = chord.side(x, y), chord.side(x2, y2)
        if min(sides) >= 0 or max(sides) <= 0:
            return bool(sum(sides) < 0)
        own = Strand(edge, True, -1)
        own.reach(x, y, x2, y2)
        return bool(own.side(chord.x1, chord.y1) + own.side(chord.x2, chord.y2) > 0)
