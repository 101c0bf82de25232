"""Areas dark and clear in their order, as contours of whole corners: within what is left dark, or round it.

A line goes upwards over all edges. Between two lines with ends or crossings the edges have one order, and of each gap
between neighbours the last area that covers it tells whether it is dark. A run of dark gaps between two lines is a
trapezoid. All lines are at whole y; edges that cross between two of them are straightened there (bundles). What runs
share a line's part is one contour as far as it goes up (runs).

The border of a clear area may be dark or not. LOWER keeps a unit off it to both sides; level edges and their ends are
not looked at for that, so who wants them out makes the area larger. UPPER has it, also where two areas share an edge
and nothing else is left, but for areas of one object: what is in its areas on all sides is no border of it.
"""
from bisect import bisect_right
from heapq import heappop, heappush

from boardnet_show.geometry.exact import Refused
from boardnet_show.geometry.segments import cross

from . import crossing_edges
from .dark_spans import Piece, Runs, linked
from .rising_edges import beneath, crossing, ordered, slope, strands_of, toggled, windows_of


class Sweep:
    """`items` are (dark, corners) in order; `out` are (corners, item) of the contours. Of clear ones whose numbers are
    `closed` the border is theirs for certain. `objects` are those that the items are of."""

    def __init__(self, items, upper, closed=(), objects=None):
        self.upper, self.status, self.runs, self.seeds, self.count, self.touched = upper, [], Runs(upper), [], 0, ()
        self.noted, self.spans, self.levels, self.back, self.unders, self.heap, self.marks, self.crossed = (
            {},
            {},
            {},
            {},
            {},
            [],
            (),
            {},
        )
        self.dark = [dark for dark, _ in items] + [
            False,
            True,
        ]  # the last two: what stands for clear and dark in a bundle
        self.out, self.closed, self.objects = self.runs.out, set(closed), [*(objects or range(len(items))), -2, -1]
        events, strands = [], []
        for k, (_, corners) in enumerate(items):
            found, levels = strands_of(corners, k)
            for strand in found:
                events += [(y, x, len(strands)) for x, y in strand.corners()]
                strands.append(strand)
            for y, low, high in levels:
                self.note(y, low)
                self.spans.setdefault(y, []).append((low, high))
                self.levels.setdefault(y, []).append((low, high, k))
        events.sort()
        self.lines(events, strands)
        for strand in strands:
            strand.let_go()
        if self.status:
            raise Refused("a sweep that does not end")

    def note(self, y, *xs):
        if y not in self.noted:
            self.noted[y] = []
            heappush(self.heap, y)
        self.noted[y] += xs

    # ---- lines

    def lines(self, events, strands):
        """Line by line; what is alone at its place is done at once, but where a line was noted."""
        at, end, heap, events = 0, len(events), self.heap, events + [(None, None, None)]
        y, x, k = events[0]
        while at < end or heap:
            if at == end or heap and heap[0] <= y:
                line, here = heappop(heap), []
                while at < end and y == line:
                    here.append((x, strands[k]))
                    at += 1
                    y, x, k = events[at]
                self.line(line, here)
                continue
            line, here = y, []
            self.marks = self.places(events, at) if not self.upper and events[at + 1][0] == line else ()
            while y == line:
                strand, place = strands[k], x
                at += 1
                y, x, k = events[at]
                if x != place or y != line:
                    if not self.turn(line, place, strand):
                        here.append((place, strand))
                    continue
                group = [strand]
                while x == place and y == line:
                    group.append(strands[k])
                    at += 1
                    y, x, k = events[at]
                if not self.pair(line, place, group):
                    here += [(place, strand) for strand in group]
            if here or self.seeds:
                self.line(line, here)

    @staticmethod
    def places(events, at):
        """Where the events of a line are."""
        line, found = events[at][0], set()
        while events[at][0] == line:
            found.add(events[at][1])
            at += 1
        return found

    def line(self, y, events):
        spans = {(x, x) for x in self.noted.pop(y, ())}
        spans.update(self.spans.pop(y, ()))
        if events or spans:
            spans.update((x, x) for x, _ in events)
            starts, self.under = self.back.pop(y, []), self.unders.pop(y, ())
            for x, strand in events:
                if strand.rest and not strand.active:
                    strand.rise()
                    starts.append((x, strand))
            windows = windows_of(spans, starts)
            if len(windows) > 1 and not self.upper:  # first of all of them: one piece may come to several
                for low, high, started in windows:
                    _, old, _, left, below, above = self.around(y, low, high, started)
                    self.keep_off(y, old, left, below, above)
            for low, high, started in windows:
                self.window(y, low, high, started)
        for a, b in self.crossed.pop(y, ()):
            if a.active and a.after is b:
                self.meet(a, b, y)
        if self.seeds:
            crossing_edges.straighten(self, y)

    # ---- where one contour touches no other

    def pair(self, y, x, group):
        """Does all that is to be done where two strands end or start; False where more may meet there."""
        s, t = group[:2]
        if (
            len(group) > 2
            or s.item != t.item
            or s.active != t.active
            or bool(s.rest) != bool(t.rest)
            or s.active == bool(s.rest)
        ):
            return False
        return self.ends(y, x, s, t) if s.active else self.starts(y, x, s, t)

    def turn(self, y, x, s):
        """A strand goes on with another edge; False where more may meet there."""
        a, b = s.before, s.after
        if (
            not s.active
            or not s.rest
            or a
            and a.high >= x
            and a.side(x, y) >= 0
            or b
            and b.low <= x
            and b.side(x, y) <= 0
        ):
            return False
        piece = s.opens or s.ends
        if piece:
            self.runs.turn(piece, s, x, y)
        s.rise()
        if a and a.high >= s.low:
            self.meet(a, s, y)
        if b and s.high >= b.low:
            self.meet(s, b, y)
        return True

    def starts(self, y, x, s, t):
        """Two strands start."""
        i = self.find(y, x)
        a, b = self.status[i - 1] if i else None, self.status[i] if i < len(self.status) else None
        if b and b.side(x, y) <= 0:
            return False
        turn, outer = cross((x, y), s.rest[-1], t.rest[-1]), a.cover if a else ()
        if (
            not turn
            or self.marks
            and self.is_dark(outer)
            and self.is_marked(y, self.spanning(i).left, self.spanning(i).right)
        ):
            return False
        s.rise()
        t.rise()
        if turn > 0:
            s, t = t, s
        t.cover = outer
        inner = s.cover = toggled(outer, s.item)
        self.put(i, i, [s, t])
        if self.is_dark(inner) and not self.is_dark(outer):
            by = self.off(inner, outer)
            Piece(y, inner[-1]).take(s, t, by, by)
        elif self.is_dark(outer) and not self.is_dark(inner):
            piece, by = self.spanning(i), self.off(outer, inner)
            self.runs.settle(piece, y)
            Piece(y, outer[-1]).take(t, piece.right, by, piece.right_by)
            self.runs.change(piece, y, None, s, 0, by)
        if a:
            self.meet(a, s, y)
        if b:
            self.meet(t, b, y)
        return True

    def ends(self, y, x, s, t):
        """Two neighbours end."""
        if t.after is s:
            s, t = t, s
        a, b = s.before, t.after
        if s.after is not t or a and a.side(x, y) >= 0 or b and b.side(x, y) <= 0:
            return False
        if self.marks and s.ends and self.is_marked(y, s.ends.left, t.opens.right):
            return False
        i = self.find(y, x)
        self.put(i, i + 2, [])
        if s.opens:
            self.runs.settle(s.opens, y)
            self.runs.flush(s.opens)
        elif s.ends:
            piece, other = s.ends, t.opens
            self.runs.settle(piece, y)
            self.runs.settle(other, y)
            self.runs.flush(other)
            self.runs.change(piece, y, None, other.right, 0, other.right_by)
        if a and b:
            self.meet(a, b, y)
        return True

    def is_marked(self, y, left, right):
        """Whether the sides of what is dark beside a place may be touched on the same line: corners there are not known
        yet."""
        return left.at(y) in self.marks or right.at(y) in self.marks

    def find(self, y, x):
        """The first strand that is not left of x."""
        status, low, high = self.status, 0, len(self.status)
        floor, up, p, q = x.__floor__(), x.__ceil__(), x.numerator, x.denominator
        while low < high:
            middle = (low + high) // 2
            e = status[middle]
            if e.high < floor or e.low <= up and e.dx * (y - e.y1) * q < (p - e.x1 * q) * e.dy:
                low = middle + 1
            else:
                high = middle
        return low

    def place_of(self, strand, y):
        """A strand's place among those on a line."""
        i = self.find(y, strand.at(y))
        while self.status[i] is not strand:
            i += 1
        return i

    def put(self, i, j, new):
        """Other strands in place of some."""
        status = self.status
        for e in status[i:j]:
            e.active = False
        before, after = status[i - 1] if i else None, status[j] if j < len(status) else None
        status[i:j] = new
        for e in new:
            e.active, e.before = True, before
            if before:
                before.after = e
            before = e
        if before:
            before.after = after
        if after:
            after.before = before

    def around(self, y, low, high, started):
        """Of a window its place among the strands, those below and above its line, what covers the gap left of it, and
        the gaps."""
        status = self.status
        i = j = self.find(y, low)
        while j < len(status) and status[j].side(high, y) <= 0:
            j += 1
        old = status[i:j]
        new = ordered(y, [e for e in old if e.y2 > y or e.rest] + started)
        left = status[i - 1].cover if i else ()
        return i, old, new, left, [(e.at(y), e.cover, e.item) for e in old], self.covered(y, i, old, new)

    def window(self, y, low, high, started):
        status = self.status
        i, old, new, left, below, above = self.around(y, low, high, started)
        j = i + len(old)
        if self.upper:
            under = [it for it in self.under if low <= it[0] <= high]
            real = beneath(left, below, under)
            self.keep_points(y, left, below, under, above, real)
        else:
            self.keep_off(y, old, left, below, above)
        runs = self.below(y, old)
        for e, (_, cover, _) in zip(new, above):
            if e.y2 == y:
                e.rise()
            e.cover = cover
        self.put(i, j, new)
        self.recast(y, i, old, new, runs)
        j = i + len(new)
        levels = [it for it in self.levels.get(y, ()) if low <= it[0] and it[1] <= high] if self.upper else ()
        if levels:
            self.level(y, left, levels, real, above)
        for k in range(max(i - 1, 0), min(j, len(status) - 1)):
            self.meet(status[k], status[k + 1], y)

    def covered(self, y, i, old, new):
        """For each strand of a window its place, what covers the gap right of it, and its area."""
        cover, found = self.status[i - 1].cover if i else (), []
        right = old[-1].cover if old else cover
        for e in new:
            cover = toggled(cover, e.item)
            found.append((e.at(y), cover, e.item))
        if cover != right:
            raise Refused("a sweep that does not close")
        return found

    def keep_off(self, y, old, left, below, above):
        """For LOWER the places of a window at which the last area that comes up to them is clear: runs keep off
        these."""
        last = {}
        for side in (below, above):
            cover = left
            for x, after, item in side:
                last[x] = max(last.get(x, -2), -2 if item is None else item, *cover, *after)
                cover = after
        self.touched = {x for x, k in last.items() if not self.dark[k]}
        for e, (x, *_) in zip(old, below):
            for piece in (e.opens, e.ends) if x in self.touched else ():
                if piece:
                    self.runs.narrow(piece, y, e is piece.left, e is piece.right)

    def keep_points(self, y, left, below, under, above, real):
        """For UPPER the places of a window that are left alone where clear areas do not have their borders, as small
        squares. `under` are the strands that come back from bundles, `real` all below the line."""
        near = {}
        for side in (below, above):
            cover = left
            for x, after, item in side:
                if item is not None:
                    near.setdefault(x, []).append((cover, after, item))
                cover = after
        for x, before, after, item in under:
            near.setdefault(x, []).append((before, after, item))
        sides = [([x for x, *_ in side], [left] + [after for _, after, _ in side]) for side in (real, above)]
        for x, found in near.items():
            gaps = [gap for before, after, _ in found for gap in (before, after)] + [
                covers[bisect_right(xs, x)] for xs, covers in sides
            ]
            if not any(map(self.is_dark, gaps)):
                items = {item for *_, item in found}.union(*gaps)
                items.update(item for low, high, item in self.levels.get(y, ()) if low <= x <= high)
                last = self.last_of(items, gaps)
                if self.dark[last]:
                    low, high = x.__floor__() - 1, x.__ceil__() + 1
                    self.out.append(([(low, y - 1), (high, y - 1), (high, y + 1), (low, y + 1)], last))

    def is_dark(self, cover):
        return bool(cover) and self.dark[cover[-1]]

    def meet(self, a, b, y):
        """Notes where neighbours change places: a line there, or at the whole y below, or a bundle from this line
        on."""
        if a.high < b.low:
            return
        top = min(a.y2, b.y2)
        if (a.x1 * a.dy + a.dx * (top - a.y1)) * b.dy <= (b.x1 * b.dy + b.dx * (top - b.y1)) * a.dy:
            return
        at, rest = divmod(*crossing(a, b))
        if at == y:
            if rest:
                self.seeds.append((a, b))
        elif rest:
            self.note(at)
            self.crossed.setdefault(at, []).append((a, b))
        else:
            self.note(at, a.at(at))

    # ---- pieces

    def below(self, y, old):
        """The dark runs below a line, settled: [left, right, piece], None where they go out of the window."""
        found = []
        for e in old:
            for piece in (e.opens, e.ends):
                if piece:
                    self.runs.settle(piece, y)
            if e.ends:
                if found and found[-1][2] is e.ends:
                    found[-1][1] = e.at(y)
                else:
                    found.append([None, e.at(y), e.ends])
            if e.opens:
                found.append([e.at(y), None, e.opens])
        return found

    def above(self, y, i, new):
        """The dark runs above a line: [left, right, left strand, right strand, cover, left_by, right_by]. Strands in
        one line are one."""
        cover = self.status[i - 1].cover if i else ()
        found, first, before = [[None, None, None, None, cover, 0, 0]] if self.is_dark(cover) else [], 0, cover
        for k, e in enumerate(new):
            if k + 1 < len(new) and not slope(e, new[k + 1]) and e.at(y) == new[k + 1].at(y):
                continue
            was, now, x, strand = self.is_dark(before), self.is_dark(e.cover), e.at(y), new[first]
            if now and not was:
                found.append([x, None, strand, None, e.cover, self.off(e.cover, before, x), 0])
            elif was and not now:
                found[-1][1], found[-1][3], found[-1][6] = x, strand, self.off(before, e.cover, x)
            elif k > first and not now and self.upper:
                last = self.hair(before, e.cover, [it.item for it in new[first : k + 1]])
                found += [[x, x, strand, e, (last,), 1, 1]] if last is not None else []
            before, first = e.cover, k + 1
        return found

    def off(self, dark, gap, x=None):
        """Whether the border of a dark gap is that of a later clear area, or may be."""
        return int(
            not self.upper and (x in self.touched or bool(gap) and (gap[-1] > dark[-1] or dark[-1] < 0 or gap[-1] < 0))
        )

    def hair(self, one, two, items):
        """The dark area that is left on a border of some between two gaps, where clear areas do not have their borders,
        or None."""
        last = self.last_of({*one, *two, *items} - {None}, (one, two))
        return last if self.dark[last] else None

    def last_of(self, items, gaps):
        """The last of the areas at a border between some gaps that is dark, or has the border for certain: since its
        object has all of the gaps."""
        every = None
        for k in sorted(items, reverse=True):
            if self.dark[k] or k in self.closed:
                return k
            if every is None:
                every = set.intersection(*({self.objects[each] for each in gap} for gap in gaps))
            if self.objects[k] in every:
                return k
        return -2

    def level(self, y, left, levels, below, above):
        """What is left of a window's level edges between two gaps that are not dark, as thin contours."""
        one, two, k, m = left, left, 0, 0
        xs = sorted({x for x, *_ in below + above} | {x for low, high, _ in levels for x in (low, high)})
        for a, b in zip(xs, xs[1:]):
            while k < len(below) and below[k][0] <= a:
                one, k = below[k][1], k + 1
            while m < len(above) and above[m][0] <= a:
                two, m = above[m][1], m + 1
            items = [item for low, high, item in levels if low <= a and b <= high]
            last = self.hair(one, two, items) if items and not self.is_dark(one) and not self.is_dark(two) else None
            if last is not None:
                low, high = a.__floor__() - 1, b.__ceil__() + 1
                self.out.append(([(low, y - 1), (high, y - 1), (high, y + 1), (low, y + 1)], last))

    def spanning(self, i):
        while not self.status[i - 1].opens:
            i -= 1
        return self.status[i - 1].opens

    def recast(self, y, i, old, new, below):
        """Runs that share a part of the line go on, each as one; the others end and start."""
        above = self.above(y, i, new)
        if not below and (not above or above[0][:2] == [None, None]):
            return
        if not below and above[0][0] is None:
            below = [[None, None, self.spanning(i)]]
            self.runs.settle(below[0][2], y)
        for e in old:
            e.opens = e.ends = None
        left, right = (below[0][2], below[-1][2]) if below else (None, None)
        left, right = left and (left.left, left.left_by), right and (right.right, right.right_by)
        goes = []
        for its in linked(below, above):
            goes.append(next((n for n in its if n not in goes), None))
        for n, (_, _, piece) in enumerate(below):
            if n not in goes:
                self.runs.flush(piece)
        for (_, _, a, b, cover, left_by, right_by), n in zip(above, goes):
            if a is None and n != 0:
                a, left_by = left
            if b is None and n != len(below) - 1:
                b, right_by = right
            if n is None:
                Piece(y, cover[-1]).take(a, b, left_by, right_by)
            else:
                self.runs.change(below[n][2], y, a, b, left_by, right_by)
