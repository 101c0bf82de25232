"""A model of copper that shares no code with what it tries: tracks and holes on a raster, whose cells are flooded."""
import math

CELL = 1 / 20  # mm


def cell_of(spot):
    return round(spot[0] / CELL), round(spot[1] / CELL)


def away(p, a, b):
    """How far a place is from a line."""
    dx, dy = b[0] - a[0], b[1] - a[1]
    length = dx * dx + dy * dy
    t = max(0, min(1, ((p[0] - a[0]) * dx + (p[1] - a[1]) * dy) / length)) if length else 0
    return math.hypot(p[0] - a[0] - t * dx, p[1] - a[1] - t * dy)


class Raster:
    """Tracks as (start, end, half the width) without holes as (middle, radius), all wider by some slack; with `drawn_in` the middles of
    discs of that radius that lie in it."""

    def __init__(self, tracks, holes, slack, drawn_in=0):
        self.tracks, self.holes, self.slack, self.drawn_in = tracks, holes, slack, drawn_in

    def has(self, p):
        return any(away(p, a, b) <= r + self.slack for a, b, r in self.tracks) and all(
            away(p, c, c) >= r - self.slack for c, r in self.holes
        )

    def cells(self, size):
        count = round(size / CELL)
        found = {(i, j) for i in range(count + 1) for j in range(count + 1) if self.has((i * CELL, j * CELL))}
        reach = int(self.drawn_in / CELL)
        disc = [
            (a, b)
            for a in range(-reach, reach + 1)
            for b in range(-reach, reach + 1)
            if math.hypot(a, b) * CELL <= self.drawn_in
        ]
        return {(i, j) for i, j in found if all((i + a, j + b) in found for a, b in disc)}

    def nets(self, size):
        """The net of each cell with copper, by flooding its neighbours."""
        net, left = {}, self.cells(size)
        while left:
            start = left.pop()
            net[start], todo = start, [start]
            while todo:
                i, j = todo.pop()
                for step in ((i + a, j + b) for a in (-1, 0, 1) for b in (-1, 0, 1)):
                    if step in left:
                        left.remove(step)
                        net[step] = start
                        todo.append(step)
        return net
