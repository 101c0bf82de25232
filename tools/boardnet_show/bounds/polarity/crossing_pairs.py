"""Two strands that cross each other alone between a line and the next whole y: they change places there.

Four gaps meet where they cross. Where one is dark, or all but one beside the strands, a side of one piece goes from one
strand to the other. The least of two straight lines bends outwards: a chord lies beyond both. Where the other side of
them is asked for, the side stands upright at the farthest place that it comes to. Either way each place between it and
the strands has one of these within a unit above or below it, however level they are.
"""
from fractions import Fraction as Q

from .dark_spans import Piece
from .rising_edges import crossing, toggled


class Swap:
    """`a` is left of `b` at a line and right of it a unit above."""

    def __init__(self, sweep, y, i):
        self.sweep, self.runs, self.y, self.i = sweep, sweep.runs, y, i
        self.a, self.b = a, b = sweep.status[i : i + 2]
        self.left, self.under, self.right = sweep.status[i - 1].cover if i else (), a.cover, b.cover
        self.over = toggled(self.left, b.item)
        self.dark = [sweep.is_dark(gap) for gap in (self.left, self.under, self.over, self.right)]

    def is_plain(self):
        """Whether no more than one side of a piece is concerned, and no border that is left alone."""
        a, b, count = self.a, self.b, sum(self.dark)
        pieces = [a.opens, a.ends, b.opens, b.ends]
        if count in (0, 4):
            items = {a.item, b.item}
            hidden = max(set(self.left) - items, default=-1) > max(items)
            return not any(pieces) and (count == 4 or hidden or not any(self.sweep.dark[k] for k in items))
        if count == 2 or count == 3 and not (self.dark[1] and self.dark[2]):
            return False
        return sum(map(bool, pieces)) == (
            2 if self.dark == [False, True, False, False] else 0 if self.dark == [False, False, True, False] else 1
        )

    def make(self):
        sweep, a, b = self.sweep, self.a, self.b
        i = sweep.place_of(a, self.y)
        count, (left, under, over, right) = sum(self.dark), self.dark
        if count in (1, 3):
            is_chord, off = (count == 1) != sweep.upper, sweep.off
            if count == 1 and under:
                self.ends(a.opens)
            elif count == 1 and over:
                self.starts()
            elif left == (count == 1):
                self.bend(a, b, is_chord, False, off(self.left, self.over)) if left else self.bend(
                    a, b, is_chord, True, off(self.over, self.left)
                )
            else:
                self.bend(b, a, is_chord, True, off(self.right, self.over)) if right else self.bend(
                    b, a, is_chord, False, off(self.over, self.right)
                )
        sweep.put(i, i + 2, [b, a])
        b.cover, a.cover = self.over, self.right
        for one, two in ((b.before, b), (a, a.after)):
            if one and two:
                sweep.meet(one, two, self.y)

    def side_at(self, e, y, is_left):
        """Where a side is on a strand; for LOWER a unit off it, since more may come up to it on the upper line."""
        by = 0 if self.sweep.upper else 1
        return e.down(y) + by if is_left else e.up(y) - by

    def farthest(self, places, is_left):
        """Where an upright side stands that is beyond some places, and beyond the one at which the strands cross."""
        far, by = min if is_left == self.sweep.upper else max, 0 if self.sweep.upper else 1
        x = far(*places, self.a.at(Q(*crossing(self.a, self.b))))
        return x.__floor__() + by if is_left else x.__ceil__() - by

    def bend(self, was, now, is_chord, is_left, by):
        """A side goes on another strand. What is too narrow for that is left out of LOWER."""
        y, piece, runs = self.y, was.opens if is_left else was.ends, self.runs
        runs.settle(piece, y)
        self.begin(piece)
        if piece.lefts is not None:
            x = self.farthest((was.at(y), now.at(y + 1)), is_left)
            corners = [
                (self.side_at(was, y, is_left), y),
                *([] if is_chord else [(x, y), (x, y + 1)]),
                (self.side_at(now, y + 1, is_left), y + 1),
            ]
            other = piece.right if is_left else piece.left
            far = {h: self.side_at(other, h, not is_left) for h in (y, y + 1)}
            if self.sweep.upper or all(2 <= (far[h] - x if is_left else x - far[h]) for x, h in corners):
                (piece.lefts if is_left else piece.rights).extend(corners)
            else:
                runs.flush(piece)
        piece.since = y + 1
        if is_left:
            was.opens = None
            piece.take(now, None, by, 0)
        else:
            was.ends = None
            piece.take(None, now, 0, by)

    def begin(self, piece):
        """Corners at the line, where it is wide enough."""
        low, high = self.runs.sides(piece, self.y)
        if not self.sweep.upper and high - low < 4:
            self.runs.flush(piece)
        elif piece.lefts is None:
            piece.lefts, piece.rights = [(low, self.y)], [(high, self.y)]
        else:
            self.runs.pin(piece)

    def ends(self, piece):
        y, a, b = self.y, self.a, self.b
        self.runs.settle(piece, y)
        if self.sweep.upper:
            self.begin(piece)
            low, high = self.runs.sides(piece, y)
            left, right = self.farthest([a.at(y)], True), self.farthest([b.at(y)], False)
            piece.lefts += [(low, y), (left, y)]
            piece.rights += [(high, y), (right, y)]
            piece.since = y + 1
            self.runs.close(piece, left, right)
        else:
            self.runs.flush(piece)
        a.opens = b.ends = None

    def starts(self):
        y, a, b, off = self.y, self.a, self.b, self.sweep.off
        piece = Piece(y + 1, self.over[-1])
        piece.take(b, a, off(self.over, self.left), off(self.over, self.right))
        if self.sweep.upper:
            left, right = self.farthest([b.at(y + 1)], True), self.farthest([a.at(y + 1)], False)
            piece.lefts = [(left, y), (left, y + 1), (b.down(y + 1), y + 1)]
            piece.rights = [(right, y), (right, y + 1), (a.up(y + 1), y + 1)]
