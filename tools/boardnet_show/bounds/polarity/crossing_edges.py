"""Strands that cross between a line and the next whole y, a unit above: straight ones stand there in their place.

The strands of a bundle are some that lie side by side, and none of them crosses another. The greatest of straight lines
bends outwards, so its chord lies beyond all of them, and the least likewise. Strands of the bundle that do not cross
each other cut it into columns. One is dark or clear where it is that at every height, by all orders that the strands
have on the way; where both occur it is clear for LOWER and dark for UPPER. So what is wrong is a unit high, and as wide
as the most level strand goes in a unit: where that is far, upright columns stand there instead (upright).
"""
from collections import Counter
from fractions import Fraction as Q
from functools import cmp_to_key

from boardnet_show.geometry.exact import Refused

from .crossing_pairs import Swap
from .rising_edges import crossing, slope, straight, toggled
from .upright_columns import WIDE, boxed, dark_parts, ends

MOST_BUNDLES = 300_000
MOST_WALLS = 24  # strands of a bundle whose orders are looked at
DARK, CLEAR = (-1,), (-2,)


def straighten(sweep, y):
    """Bundles for all neighbours that were found to cross above a line."""
    status, found = sweep.status, []
    for a, b in sweep.seeds:
        if a.active and a.after is b:
            i = sweep.place_of(a, y)
            found.append([i, i + 2])
    sweep.seeds = []
    chord = lambda i, j: widened(status, i, j, y + 1)
    found = together(sorted(found), chord)
    swaps, before = plain(sweep, y, found), None
    while found != before and any(i not in swaps and is_wide(status[i:j], y) for i, j in found):
        before = found
        found = together(
            found, lambda i, j: boxed(status, i, j, y) if i not in swaps and is_wide(status[i:j], y) else chord(i, j)
        )
        swaps = plain(sweep, y, found)
    for i, j in reversed(found):
        if i not in swaps:
            bundle(sweep, y, i, j)
    for swap in swaps.values():
        swap.make()


def together(found, widen):
    """Ranges of strands, each with what it wants beside it."""
    while True:
        wider = merged([widen(i, j) for i, j in found])
        if wider == found:
            return found
        found = wider


def plain(sweep, y, found):
    """The ranges of two strands that change places, by where they begin."""
    often = Counter(piece for i, j in found for piece in pieces(sweep.status[i:j]))
    pairs = [
        Swap(sweep, y, i)
        for i, j in found
        if j - i == 2 and all(often[piece] == 1 for piece in pieces(sweep.status[i:j]))
    ]
    return {swap.i: swap for swap in pairs if swap.is_plain()}


def pieces(strands):
    return {piece for e in strands for piece in (e.opens, e.ends) if piece}


def widened(status, i, j, top):
    """With the neighbours that cross one of them; and where they are a unit above."""
    xs = [e.at(top) for e in status[i:j]]
    low, high = min(xs), max(xs)
    while i and status[i - 1].high > low and (x := status[i - 1].at(top)) > low:
        i, low, high = i - 1, min(low, x), max(high, x)
    while j < len(status) and status[j].low < high and (x := status[j].at(top)) < high:
        j, low, high = j + 1, min(low, x), max(high, x)
    return i, j, low, high


def merged(ranges):
    """Those that overlap, or whose strands cross, are one."""
    out = []
    for i, j, low, high in ranges:
        if out and (i < out[-1][1] or i == out[-1][1] and low < out[-1][2]):
            out[-1][1:] = [max(out[-1][1], j), max(out[-1][2], high)]
        else:
            out.append([i, j, high])
    return [it[:2] for it in out]


def bundle(sweep, y, i, j):
    """Straight strands in place of those that cross; these come back a unit above."""
    sweep.count += j - i
    if sweep.count > MOST_BUNDLES:
        raise Refused("too many borders that cross")
    old, left = sweep.status[i:j], sweep.status[i - 1].cover if i else ()
    new = (boxes if is_wide(old, y) else chords)(sweep, left, old, y)
    new[-1].cover = old[-1].cover
    below = sweep.below(y, old)
    sweep.put(i, j, new)
    sweep.recast(y, i, old, new, below)
    sweep.note(y + 1, new[0].x2)
    sweep.spans.setdefault(y + 1, []).append((new[0].x2, new[-1].x2))
    sweep.unders.setdefault(y + 1, []).extend(under(left, old, y + 1))
    sweep.back.setdefault(y + 1, []).extend((e.at(y + 1), e) for e in old if e.y2 > y + 1)


def chords(sweep, left, old, y):
    """Chords beyond all strands, and the walls between them."""
    tops = [e.at(y + 1) for e in old]
    walls, states = columns(sweep, left, old, y)
    new = [
        straight((old[0].at(y), y), (min(tops), y + 1)),
        *(straight((e.at(y), y), (e.at(y + 1), y + 1)) for e in walls),
    ]
    for e, its in zip(new, states):
        e.cover = DARK if its == {True} or len(its) == 2 and sweep.upper else CLEAR
    return [*new, straight((old[-1].at(y), y), (max(tops), y + 1))]


def boxes(sweep, left, old, y):
    """The ends of a box, and upright walls at those of its dark parts."""
    parts = dark_parts(sweep, left, old, y)
    starts = {a for a, _ in parts}
    new = [straight((x, y), (x, y + 1)) for x in sorted({*ends(old, y), *(x for part in parts for x in part)})]
    for e in new:
        e.cover = DARK if e.x1 in starts else CLEAR
    return new


def is_wide(strands, y):
    low, high = ends(strands, y)
    return high - low > WIDE


def under(left, old, top):
    """For each strand its place on the upper line, what covers the gaps beside it just below that, and its area."""
    cover = left
    for e in sorted(old, key=cmp_to_key(lambda a, b: a.at(top) - b.at(top) or slope(b, a))):
        before, cover = cover, toggled(cover, e.item)
        yield e.at(top), before, cover, e.item


def columns(sweep, left, old, y):
    """The strands that stay as walls, the steepest first, and for the columns between them whether dark, clear or both
    occur. Those of areas under the last one that covers all of the bundle do not matter."""
    last = max(set(left).difference(e.item for e in old), default=-1)
    old = [e for e in old if e.item > last]
    if not old:
        return [], [{sweep.is_dark(left)}]
    if len(old) > MOST_WALLS:
        return [], [{True, False}]
    crosses = {(a, b) for k, a in enumerate(old) for b in old[k + 1 :] if a.at(y + 1) > b.at(y + 1)}
    walls = []
    for e in sorted(old, key=lambda e: abs(e.at(y + 1) - e.at(y))):
        if not any((e, w) in crosses or (w, e) in crosses for w in walls):
            walls.append(e)
    walls = [e for e in old if e in walls]
    states = [set() for _ in range(len(walls) + 1)]
    states[0].add(sweep.is_dark(left))
    states[-1].add(sweep.is_dark(old[-1].cover))
    heights = sorted({y, y + 1} | {Q(*crossing(a, b)) for a, b in crosses})
    for low, high in zip(heights, heights[1:]):
        middle = Q(low + high) / 2
        across(sweep, left, sorted((e.at(middle), k, e) for k, e in enumerate(old)), walls, states)
    return walls, states


def across(sweep, left, order, walls, states):
    """Adds what each column has at one height; an edge that is left of two areas belongs to the columns beside it."""
    cover, column, gap, items = left, 0, left, []
    for (x, _, e), after in zip(order, order[1:] + [(None,)]):
        cover, column = toggled(cover, e.item), column + (e in walls)
        items.append(e.item)
        if x != after[0]:
            dark = sweep.is_dark(cover)
            states[column].add(dark)
            if sweep.upper and not dark and not sweep.is_dark(gap) and sweep.hair(gap, cover, items) is not None:
                states[column].add(True)
            gap, items = cover, []
