"""Of a gap between two edges on a rising line the corners below that later ones may see: a chain from the left edge's
lower end to the right one's.

What lies below the chain is in triangles already. A corner that the line comes to sees the chain from its own end on,
as far as it bends towards it; each corner seen is the other end of a diagonal, and what is cut off leaves the chain.
So every diagonal meets the border at its ends alone."""
from typing import Any, Callable, Optional

Told = Callable[[int, int], None]  # takes the two corners of a diagonal; -1 is a place that is no corner


class Node:
    """A place of a chain, with the number of its corner."""

    __slots__ = ("x", "y", "corner", "before", "after")

    def __init__(self, x: Any, y: Any, corner: int) -> None:
        self.x, self.y, self.corner = x, y, corner
        self.before: Optional["Node"] = None
        self.after: Optional["Node"] = None


class Chain:
    """From the left to the right; `latest` is the one that the line came to last."""

    __slots__ = ("first", "last", "latest")

    def __init__(self, node: Node) -> None:
        self.first = self.last = self.latest = node

    def left_end(self, new: Node, found: Told) -> None:
        """The left edge ends at a place, and another one goes on."""
        x, y, corner = new.x, new.y, new.corner
        node, other = self.first, self.first.after
        while other is not None and (node.x - x) * (other.y - y) > (node.y - y) * (other.x - x):
            found(corner, other.corner)
            node, other = other, other.after
        new.after, node.before = node, new
        self.first = self.latest = new

    def right_end(self, new: Node, found: Told) -> None:
        """The same of the right edge."""
        x, y, corner = new.x, new.y, new.corner
        node, other = self.last, self.last.before
        while other is not None and (other.x - x) * (node.y - y) > (other.y - y) * (node.x - x):
            found(corner, other.corner)
            node, other = other, other.before
        new.before, node.after = node, new
        self.last = self.latest = new

    def split(self, new: Node, found: Told) -> "Chain":
        """Edges start within the gap: this chain is left of them, the other one right."""
        seen = self.latest
        found(new.corner, seen.corner)
        right = Chain(Node(seen.x, seen.y, seen.corner))
        if seen.after is not None:
            right.first.after, seen.after.before = seen.after, right.first
            right.last = self.last
        seen.after, self.last = None, seen
        right.left_end(Node(new.x, new.y, new.corner), found)
        self.right_end(new, found)
        return right

    def join(self, right: "Chain") -> None:
        """The edges between two gaps end: the last of this chain and the first of the other are one place."""
        second = right.first.after
        if second is not None:
            self.last.after, second.before = second, self.last
            self.latest, self.last = self.last, right.last
        else:
            self.latest = self.last
