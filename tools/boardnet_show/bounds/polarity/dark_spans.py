"""Dark runs between two strands, from line to line, as contours: their sides are rounded inwards for LOWER and outwards
for UPPER.

A side is straight between two corners, and all lines are at whole y, so what is rounded at both ends is on the right
side all along. A corner on a straight side is left out where the run is so wide there that its sides cannot cross: a
side stays within a unit of its strand. What is rounded past the other side is no part of LOWER.
"""
from operator import mul

from boardnet_show.geometry.segments import cross

from .rising_edges import slope

LONGEST = 30_000  # corners of a side that is still added to
APART = 4  # a run is wide where it is wider all along


class Piece:
    """A dark run since a line; `lefts` and `rights` are corners of its contour, None where it has none yet. A side is
    moved by `left_by` and `right_by`, inwards for LOWER and outwards for UPPER. Where it is `tight` at its last line,
    both sides want corners there."""

    __slots__ = ("left", "right", "since", "item", "lefts", "rights", "left_by", "right_by", "tight")

    def __init__(self, since, item):
        self.since, self.item, self.lefts, self.rights, self.tight = since, item, None, None, False

    def take(self, left, right, left_by, right_by):
        if left is not None:
            self.left, left.opens, self.left_by = left, self, left_by
        if right is not None:
            self.right, right.ends, self.right_by = right, self, right_by


class Runs:
    """Pieces become contours in `out`, as (corners, item)."""

    def __init__(self, upper):
        self.upper, self.out = upper, []

    def sides(self, piece, y):
        left, right = piece.left, piece.right
        if self.upper:
            return left.down(y) - piece.left_by, right.up(y) + piece.right_by
        return (left.down(y) + 1 if piece.left_by else left.up(y)), (
            right.up(y) - 1 if piece.right_by else right.down(y)
        )

    def pin(self, piece):
        """Adds the corners that are wanted at the piece's last line."""
        if piece.tight and piece.lefts is not None:
            low, high = self.sides(piece, piece.since)
            piece.lefts.append((low, piece.since))
            piece.rights.append((high, piece.since))
        piece.tight = False

    def settle(self, piece, y):
        """Adds the trapezoid from the piece's last line to this one."""
        if piece.since == y:
            return
        self.pin(piece)
        l1, r1 = self.sides(piece, y)
        if piece.lefts is None:
            l0, r0 = self.sides(piece, piece.since)
            if l0 > r0 or l1 > r1:
                self.thin(piece, y, l0 <= r0)
                return
            piece.lefts, piece.rights = [(l0, piece.since)], [(r0, piece.since)]
        elif l1 > r1:
            self.thin(piece, y, True)
            return
        piece.tight, piece.since = r1 - l1 < 2, y

    def thin(self, piece, y, starts):
        """At an end of the trapezoid the sides round past each other: what is of it where they are so far apart that
        they do not."""
        a, b = piece.left, piece.right
        need = 2 if piece.left_by and piece.right_by else 1
        width = (b.x1 * b.dy - b.dx * b.y1) * a.dy - (a.x1 * a.dy - a.dx * a.y1) * b.dy - need * a.dy * b.dy
        more = slope(b, a)
        if starts and more < 0:
            self.settle(piece, max(piece.since, width // -more))
        self.flush(piece)
        if not starts and more > 0 and -(width // more) < y:
            piece.since = max(piece.since, -(width // more))
            low, high = self.sides(piece, y)
            if low <= high:
                self.settle(piece, y)
        piece.since = y

    def turn(self, piece, strand, x, y):
        """A side has a corner where it touches nothing."""
        if piece.lefts and (len(piece.lefts) > LONGEST or len(piece.rights) > LONGEST):
            self.flush(piece)
        is_left = strand is piece.left
        if (
            piece.lefts is None
            or piece.tight
            or (piece.right.low - strand.high if is_left else strand.low - piece.left.high) <= APART
        ):
            self.settle(piece, y)
        if piece.lefts is not None:
            if is_left:
                piece.lefts.append((x - piece.left_by if self.upper else x + piece.left_by, y))
            else:
                piece.rights.append((x + piece.right_by if self.upper else x - piece.right_by, y))
        piece.since = y

    def narrow(self, piece, y, left, right):
        """A side keeps off its strand at a line. Where it would cross the other, the contour ends before; where that
        was settled already, in a run of a unit's width, it is left out."""
        if piece.since < y:
            self.pin(piece)
        was = piece.left_by, piece.right_by
        now = piece.left_by or int(left), piece.right_by or int(right)
        piece.left_by, piece.right_by = now
        low, high = self.sides(piece, y)
        if low > high:
            piece.left_by, piece.right_by = was
            if piece.since < y:
                self.flush(piece)
            piece.lefts = piece.rights = None
            piece.left_by, piece.right_by = now

    def change(self, piece, y, left, right, left_by, right_by):
        """Other strands from a settled line on; None where a side goes on. What is below it and above it is one contour
        where both share a place of the line."""
        l0, r0 = self.sides(piece, y)
        piece.take(left, right, left_by, right_by)
        if piece.lefts is None:
            return
        l1, r1 = self.sides(piece, y)
        if max(l0, l1) > min(r0, r1):
            self.close(piece, l0, r0)
            return
        if left is not None:
            piece.lefts += [(l0, y), (l1, y)]
        if right is not None:
            piece.rights += [(r0, y), (r1, y)]

    def flush(self, piece):
        if piece.lefts is not None:
            self.close(piece, *self.sides(piece, piece.since))

    def close(self, piece, low, high):
        is_open = opens(piece.lefts, piece.rights)
        around = piece.lefts + [(low, piece.since), (high, piece.since)] + piece.rights[::-1]
        piece.lefts = piece.rights = None
        corners = [p for p, before in zip(around, around[-1:] + around) if p != before]
        if is_open or has_area(corners):
            self.out.append((corners, piece.item))


def opens(lefts, rights):
    """Whether two sides that do not cross are apart above their first line; where that is not seen at once, no."""
    if len(lefts) < 2 or len(rights) < 2:
        return False
    first, left, right = lefts[0], lefts[1], rights[1]
    return left[1] > first[1] < right[1] and (first[0] < rights[0][0] or cross(first, left, right) != 0)


def has_area(corners):
    if not corners:
        return False
    xs, ys = zip(*corners)
    return sum(map(mul, xs, ys[1:] + ys[:1])) != sum(map(mul, ys, xs[1:] + xs[:1]))


def linked(below, above):
    """For each run above the line those below it that it shares more than a place with."""
    ups, k = [[] for _ in above], 0
    for n, (low, high, *_) in enumerate(below):
        while k < len(above) and above[k][1] is not None and low is not None and above[k][1] <= low:
            k += 1
        m = k
        while m < len(above) and (above[m][0] is None or high is None or above[m][0] < high):
            if above[m][1] is None or low is None or above[m][1] > low:
                ups[m].append(n)
            m += 1
    return ups
