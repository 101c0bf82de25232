"""Dark and clear objects of a layer in their order: the copper that is left, between two bounds.

The copper is what each dark object has outside all clear ones after it. Below it are the dark objects' pieces within
them without the clear objects' pieces round them; above it are the pieces round without the pieces within. At a border
between dark and clear either is allowed; where pieces of one object abut is no border. Dark objects that no later clear
one comes near stay as they are.
"""
from collections import Counter
from math import gcd
from typing import Any, Collection, List, NamedTuple, Sequence, Set, Tuple

from boardnet_show.geometry.box_grid import meet
from boardnet_show.geometry.capsule_polygons import polygon
from boardnet_show.geometry.pieces import Area, Both, Box, Capsule, Piece, Spot
from boardnet_show.geometry.segments import box_of_line, edges

from .sweep import Sweep

CELLS = 64  # to each side


class Object(NamedTuple):
    """What a command makes: pieces within it and pieces round it; `tag` is the command's number. `areas` are corners of
    areas within it and round it, where they are known and fewer than those of the pieces. It `joins` its pieces where
    they abut, unless it is several contours.
    """

    dark: bool
    both: tuple
    tag: int
    areas: tuple = None
    joins: bool = True

    def moved(self, x: int, y: int) -> Any:
        both = tuple([moved(piece, x, y) for piece in pieces] for pieces in self.both)
        return self._replace(
            both=both, areas=self.areas and tuple([[(p + x, q + y) for p, q in it] for it in its] for its in self.areas)
        )


def moved(piece: Piece, x: int, y: int) -> Any:
    if isinstance(piece, Area):
        return Area([(p + x, q + y) for p, q in piece.corners])
    a, b, radius = piece
    return Capsule((a[0] + x, a[1] + y), (b[0] + x, b[1] + y), radius)


def box(piece: Piece) -> Box:
    if isinstance(piece, Area):
        xs, ys = zip(*piece.corners)
        return min(xs), min(ys), max(xs), max(ys)
    return box_of_line(*piece)


class Boxes:
    """Boxes of clear pieces by cells, each with its object's place in the order."""

    def __init__(self, objects):
        self.boxes = [(box(piece), n) for n, it in enumerate(objects) if not it.dark for piece in it.both[1]]
        self.cells, self.step = {}, 1
        if self.boxes:
            high = max(max(b[2], b[3]) for b, _ in self.boxes)
            self.low = min(min(b[0], b[1]) for b, _ in self.boxes)
            self.step = (high - self.low) // CELLS + 1
        for entry in self.boxes:
            for cell in self.around(entry[0]):
                self.cells.setdefault(cell, []).append(entry)

    def around(self, b: Box) -> List[Spot]:
        cut = lambda v: max(0, min(CELLS, (v - self.low) // self.step))
        return [(i, j) for i in range(cut(b[0]), cut(b[2]) + 1) for j in range(cut(b[1]), cut(b[3]) + 1)]

    def after(self, n: int, b: Box) -> Set[int]:
        """The clear objects after the n-th object whose pieces may meet a box."""
        if not self.boxes:
            return set()
        return {m for cell in self.around(b) for c, m in self.cells.get(cell, ()) if m > n and meet(b, c)}


def chosen(objects: Sequence[Object], also: Collection[int]) -> Tuple[Set[int], Set[int]]:
    """The tags of dark objects that are cut, and the places in the order of all that the sweep is over."""
    boxes, tags, swept = Boxes(objects), set(also), set()
    for n, it in enumerate(objects):
        if it.dark:
            later = set().union(*(boxes.after(n, box(piece)) for piece in it.both[1]))
            if later or it.tag in also:
                tags.add(it.tag)
                swept |= later | {n}
    return tags, sorted(swept)


def cut(objects, also=(), sides=(0, 1)):
    """(tags, LOWER, UPPER): the tags of dark objects that are written otherwise, and what is written for them, as
    (piece, tag). Objects of the tags `also` are written otherwise in any case; of another side than `sides` there is
    nothing."""
    tags, swept = chosen(objects, set(also))
    apart, out = set(swept), []
    for side in (0, 1):
        if side not in sides:
            out.append([])
            continue
        written = [
            (piece, it.tag)
            for n, it in enumerate(objects)
            if it.dark and it.tag in tags and n not in apart
            for piece in it.both[side]
        ]
        items = [
            (objects[n].dark, corners, objects[n].tag, within, n)
            for n in swept
            for corners, within in corners_of(objects[n], side)
        ]
        joined = [it[4] if objects[it[4]].joins else (it[4], k) for k, it in enumerate(items)]
        made = Sweep([it[:2] for it in items], bool(side), [k for k, it in enumerate(items) if it[3]], joined).out
        last = max((k for k, it in enumerate(items) if it[0]), default=0)
        written += [(Area(corners), items[k if k >= 0 else last][2]) for corners, k in made]
        out.append(written)
    return (tags, *out)


def whole(objects: Sequence[Object]) -> Both:
    """All that is left, on both sides: pieces."""
    tags, *both = cut(objects)
    return tuple(
        [piece for it in objects if it.dark and it.tag not in tags for piece in it.both[side]]
        + [piece for piece, _ in both[side]]
        for side in (0, 1)
    )


def corners_of(item, side):
    """(corners, whether they lie within the object's border) of areas, for UPPER of the dark ones round and the clear
    ones within, and the other way for LOWER."""
    outer = bool(side) == item.dark
    if item.areas:
        yield from ((corners, not outer) for corners in item.areas[1 if outer else 0])
        return
    for piece in item.both[1 if outer else 0]:
        corners = polygon(piece, outer)
        if corners:
            yield corners, not outer and not isinstance(piece, Area)
            if outer and not item.dark and isinstance(piece, Area):
                yield from ((cap, False) for cap in caps(corners))


def caps(corners):
    """A unit beyond all corners at which a contour turns upwards or downwards, and round level edges and corners where
    it runs along itself or comes twice: with these and the sweep's distance to both sides LOWER has nothing of a clear
    area's border.
    """
    spots = [p for k, p in enumerate(corners) if p != corners[k - 1]]
    often = {p for p, times in Counter(spots).items() if times > 1} | doubled(spots)
    for k, (x, y) in enumerate(spots):
        p, q = spots[k - 1], spots[(k + 1) % len(spots)]
        if q[1] == y or (x, y) in often:
            low, high = (min(x, q[0]), max(x, q[0])) if q[1] == y else (x, x)
            yield [(low - 1, y - 1), (high + 1, y - 1), (high + 1, y + 1), (low - 1, y + 1)]
        elif p[1] != y and (p[1] < y) == (q[1] < y):
            yield [(x - 1, y), (x, y - 1 if p[1] > y else y + 1), (x + 1, y)]


def doubled(spots):
    """The ends of edges, but level ones, that overlap along a line."""
    lines, found = {}, set()
    for a, b in edges(spots):
        if a[1] != b[1]:
            (x, y), (u, v) = a, b = (a, b) if a[1] < b[1] else (b, a)
            by = gcd(u - x, v - y)
            dx, dy = (u - x) // by, (v - y) // by
            lines.setdefault((dx, dy, dx * y - dy * x), []).append((y, v, a, b))
    for its in lines.values():
        its.sort()
        top = its[0]
        for it in its[1:]:
            if it[0] < top[1]:
                found.update(it[2:] + top[2:])
            top = max(top, it, key=lambda one: one[1])
    return found
