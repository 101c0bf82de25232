"""Strands that cross between a line and the next whole y, some of them nearly level: upright columns stand there in
their place.

An upright line over a place meets the strands in their order there. Where all on it is dark the place's column is dark,
where nothing is it is clear; where both occur it is clear for LOWER and dark for UPPER. So what is told wrong of a
place is right at most a unit above or below it, however level the strands are. The columns fill a box that no other
strand comes into.
"""
from bisect import bisect_right
from fractions import Fraction as Q
from itertools import groupby

from .rising_edges import crossing, toggled, whole_or_place

WIDE = 5_000  # u: in a narrower box what is wrong is so at most that far
MOST_MEETS = 400_000  # strands beside each other that are looked at in one box


def ends(strands, y):
    """The leftmost and the rightmost place of some strands between two lines."""
    xs = [e.at(h) for e in strands for h in (y, y + 1)]
    return min(xs), max(xs)


def boxed(status, i, j, y):
    """The range with all neighbours that come into its box, and the ends of that."""
    low, high = ends(status[i:j], y)
    while True:
        before, after = (ends(status[k : k + 1], y) if 0 <= k < len(status) else None for k in (i - 1, j))
        if before and before[1] > low:
            i, low, high = i - 1, min(low, before[0]), max(high, before[1])
        elif after and after[0] < high:
            j, low, high = j + 1, min(low, after[0]), max(high, after[1])
        else:
            return i, j, low, high


class Row:
    """A strand between the lines, from `foot` to `head`."""

    def __init__(self, e, y):
        self.e, self.foot, self.head = e, e.at(y), e.at(y + 1)
        self.low, self.high = sorted((self.foot, self.head))

    def height(self, x):
        """How far above the line it is at a place, in parts of a unit."""
        return Q(x - self.foot) / (self.head - self.foot)

    def crosses(self, other):
        return (self.foot - other.foot) * (self.head - other.head) < 0


def places(rows):
    """Where rows begin, end and cross; None where too many are beside each other."""
    found, active, meets = set(), [], 0
    for row in rows:
        active = [it for it in active if it.high > row.low]
        found.update([row.low, row.high, *(row.e.at(Q(*crossing(row.e, it.e))) for it in active if row.crosses(it))])
        active.append(row)
        meets += len(active)
        if meets > MOST_MEETS:
            return None
    return sorted(found)


def stacks(rows, left, xs):
    """Between each two neighbouring places: what covers the gap at the line, and the rows upwards."""
    active, cover, feet, n, m = [], left, sorted(rows, key=lambda row: row.foot), 0, 0
    for a, b in zip(xs, xs[1:]):
        while n < len(rows) and rows[n].low <= a:
            active.append(rows[n])
            n += 1
        while m < len(feet) and feet[m].foot <= a:
            cover = toggled(cover, feet[m].e.item)
            m += 1
        active = [row for row in active if row.high >= b]
        middle = Q(a + b) / 2
        yield cover, sorted(((row.height(middle), k, row) for k, row in enumerate(active)))


class Column:
    """Between two places: the gaps upwards, each with the rows at its foot, and whether `some` or `every` place of it
    is dark."""

    def __init__(self, sweep, cover, stack=()):
        self.gaps = [(cover, [])]
        for _, its in groupby(stack, key=lambda entry: entry[0]):
            its = [row for *_, row in its]
            for row in its:
                cover = toggled(cover, row.e.item)
            self.gaps.append((cover, its))
        dark = [sweep.is_dark(gap) for gap, _ in self.gaps]
        self.some, self.every = any(dark), all(dark)
        if sweep.upper and not self.some:
            its = zip(self.gaps, self.gaps[1:])
            self.some = any(
                sweep.hair(one, two, [row.e.item for row in rows]) is not None for (one, _), (two, rows) in its
            )

    def heights(self, x):
        """Where gaps begin over one of its two ends."""
        return [rows[0].height(x) if rows else 0 for _, rows in self.gaps]

    def at(self, x, height):
        return self.gaps[bisect_right(self.heights(x), height) - 1][0]


def is_hair(sweep, before, after, x, items):
    """Whether something is left of upright borders between two columns without anything dark."""
    heights = {*before.heights(x), *after.heights(x)}
    return (
        not before.some
        and not after.some
        and any(h < 1 and sweep.hair(before.at(x, h), after.at(x, h), items) is not None for h in heights)
    )


def hairs(sweep, rows, xs, made):
    """A unit to both sides of what is left of upright borders. `made` are the columns before, between and after the
    places."""
    items = {}
    for row in rows:
        if row.foot == row.head:
            items.setdefault(row.foot, []).append(row.e.item)
    for k, x in enumerate(xs):
        if x in items and is_hair(sweep, made[k], made[k + 1], x, items[x]):
            yield max(xs[0], whole_or_place(x - 1)), min(xs[-1], whole_or_place(x + 1))


def dark_parts(sweep, left, old, y):
    """The parts of a box that are dark, as (from, to). Areas under the last one that covers all of it do not matter."""
    last = max(set(left).difference(e.item for e in old), default=-1)
    low, high = ends(old, y)
    rows = sorted((Row(e, y) for e in old if e.item > last), key=lambda row: row.low)
    xs = places(rows)
    if xs is None:
        return [(low, high)] if sweep.upper else []
    xs = sorted({low, high, *xs})
    made = [Column(sweep, *it) for it in stacks(rows, left, xs)]
    found = [(a, b) for a, b, it in zip(xs, xs[1:], made) if (it.some if sweep.upper else it.every)]
    if sweep.upper:
        found += hairs(sweep, rows, xs, [Column(sweep, left), *made, Column(sweep, old[-1].cover)])
    return united(sorted(found))


def united(parts):
    """Parts that share a place are one."""
    out = []
    for low, high in parts:
        if out and low <= out[-1][1]:
            out[-1] = out[-1][0], max(out[-1][1], high)
        else:
            out.append((low, high))
    return out
