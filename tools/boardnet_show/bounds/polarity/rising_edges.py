"""Contours of whole corners as strands that rise, for a line that goes upwards over them."""
from fractions import Fraction as Q
from functools import cmp_to_key
from math import gcd


class Place(Q):
    """A place on a line that is not whole: a fraction that is compared and found in tables faster, with its like and
    whole numbers."""

    __slots__ = ()

    def __lt__(self, other):
        return self._numerator * other.denominator < other.numerator * self._denominator

    def __gt__(self, other):
        return self._numerator * other.denominator > other.numerator * self._denominator

    def __le__(self, other):
        return self._numerator * other.denominator <= other.numerator * self._denominator

    def __ge__(self, other):
        return self._numerator * other.denominator >= other.numerator * self._denominator

    def __eq__(self, other):
        return type(other) is Place and self._numerator == other._numerator and self._denominator == other._denominator

    def __hash__(self):
        return hash((self._numerator, self._denominator))


def whole_or_place(x):
    """A number as a whole one or as a Place."""
    return x if type(x) is int or type(x) is Place else quotient(x.numerator, x.denominator)


def quotient(above, below):
    """A quotient by a number over 0, as a whole number or as a Place."""
    by = gcd(above, below)
    if by == below:
        return above // by
    found = object.__new__(Place)
    found._numerator, found._denominator = above // by, below // by
    return found


class Strand:
    """A part of a contour that rises, by its edge at the line, from (x1, y1) to (x2, y2) between `low` and `high`, and
    the `rest` of its corners, the next one last. `cover` are the areas right of it, `opens` and `ends` the piece whose
    left or right side it is, `before` and `after` its neighbours on the line while it is `active`."""

    __slots__ = (
        "x1",
        "y1",
        "x2",
        "y2",
        "dx",
        "dy",
        "low",
        "high",
        "item",
        "rest",
        "cover",
        "opens",
        "ends",
        "before",
        "after",
        "active",
    )

    def __init__(self, corners, item):
        self.rest, self.item = corners[::-1], item
        self.x2, self.y2 = self.rest.pop()
        self.cover, self.opens, self.ends, self.before, self.after, self.active = (), None, None, None, None, False

    def rise(self):
        """The next edge."""
        self.x1, self.y1 = x1, y1 = self.x2, self.y2
        self.x2, self.y2 = x2, y2 = self.rest.pop()
        self.dx, self.dy = x2 - x1, y2 - y1
        if x1 < x2:
            self.low, self.high = x1, x2
        else:
            self.low, self.high = x2, x1

    def let_go(self):
        """Forgets what it stood beside, so that nothing holds itself in memory by it."""
        self.before = self.after = self.opens = self.ends = None

    def corners(self):
        """All that are ahead, from the first one on."""
        return [(self.x2, self.y2)] + self.rest[::-1]

    def way(self):
        return self.dx, self.dy

    def ahead(self):
        """The way of the next edge."""
        x, y = self.rest[-1]
        return x - self.x2, y - self.y2

    def at(self, y):
        if y == self.y1:
            return self.x1
        if y == self.y2:
            return self.x2
        above, below = self.x1 * self.dy + self.dx * (y - self.y1), self.dy
        if type(above) is int:
            return quotient(above, below)
        return quotient(above.numerator, above.denominator * below)

    def down(self, y):
        return (self.x1 * self.dy + self.dx * (y - self.y1)) // self.dy

    def up(self, y):
        return -((-self.x1 * self.dy - self.dx * (y - self.y1)) // self.dy)

    def side(self, x, y):
        """Over 0 where the strand is right of a place, under 0 where it is left of it."""
        if self.low > x:
            return 1
        if self.high < x:
            return -1
        return self.dx * (y - self.y1) - (x - self.x1) * self.dy


def straight(a, b):
    found = Strand([a, b], None)
    found.rise()
    return found


def slope(a, b):
    return a.dx * b.dy - b.dx * a.dy


def ordered(y, strands):
    """By place on a line, then by place above it."""
    if len(strands) < 2:
        return strands
    ways = {e: (e.at(y), *(e.way() if e.y2 > y else e.ahead())) for e in strands}

    def order(a, b):
        (x, dx, dy), (x2, dx2, dy2) = ways[a], ways[b]
        return (x > x2) - (x < x2) or dx * dy2 - dx2 * dy

    return sorted(strands, key=cmp_to_key(order))


def crossing(a, b):
    """The height at which the lines of two edges meet, as numerator and denominator."""
    return (b.x1 * b.dy - b.dx * b.y1) * a.dy - (a.x1 * a.dy - a.dx * a.y1) * b.dy, slope(a, b)


def toggled(cover, item):
    """The areas right of an edge, in order, by those left of it."""
    if not cover or item > cover[-1]:
        return cover + (item,)
    if item == cover[-1]:
        return cover[:-1]
    return tuple(sorted(set(cover) ^ {item}))


def beneath(left, below, under):
    """The strands of a window below its line with those that came into a bundle in place of what stood for them: each
    with its place, what covers the gap right of all at that place, and its area."""
    if not under:
        return below
    found, cover = [], left
    for x, item in sorted(
        [(x, item) for x, _, item in below if item is not None] + [(x, item) for x, _, _, item in under]
    ):
        cover = toggled(cover, item)
        found.append((x, cover, item))
    return found


def strands_of(corners, item):
    """(strands, level edges as (y, low, high))."""
    spots = [p for p, before in zip(corners, corners[-1:] + corners) if p != before]
    ys = [y for _, y in spots]
    ways = [(b > a) - (b < a) for a, b in zip(ys, ys[1:] + ys[:1])]
    turns = [k for k, (way, before) in enumerate(zip(ways, ways[-1:] + ways)) if way != before] or [0]
    spots += spots[: turns[0] + 1]
    strands, levels = [], []
    for first, past in zip(turns, turns[1:] + [turns[0] + len(ways)]):
        run = spots[first : past + 1]
        if ways and ways[first]:
            strands.append(Strand(run if ways[first] > 0 else run[::-1], item))
        else:
            levels += [(a[1], min(a[0], b[0]), max(a[0], b[0])) for a, b in zip(run, run[1:])]
    return strands, levels


def windows_of(spans, starts):
    """Spans of x that touch are one; each with the strands that start in it."""
    out = []
    for low, high in sorted(spans):
        if out and low <= out[-1][1]:
            out[-1][1] = max(out[-1][1], high)
        else:
            out.append([low, high, []])
    k = 0
    for x, _, strand in sorted((x, n, strand) for n, (x, strand) in enumerate(starts)):
        while out[k][1] < x:
            k += 1
        out[k][2].append(strand)
    return out
