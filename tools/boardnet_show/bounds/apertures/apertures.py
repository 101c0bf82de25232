"""Apertures of a copper file as what both sides write for them: passed on, or as pieces within the shape and pieces
round it."""
from fractions import Fraction as Q
from math import cos, pi, sin
from typing import Dict, List, Optional, Sequence, Tuple, Union

from boardnet_show.bounds.primitives.insets import eighth_chain, eighth_radius
from boardnet_show.bounds.primitives.real_polygons import convex_bounds
from boardnet_show.bounds.primitives.rounded_contours import rounded_contour
from boardnet_show.bounds.primitives.slots import slot_draws
from boardnet_show.formats.gerber_machine import MOST_WIDE
from boardnet_show.geometry.arcs import Arc, arc_chain, chain_bounds, draw_bounds, leaves
from boardnet_show.geometry.exact import Refused, exact
from boardnet_show.geometry.pieces import Area, Capsule, Corners, Piece, Spot
from boardnet_show.geometry.segments import cross

from .macros import figures, rectangle, regular, rows, without

OBROUND, RECTANGLE, CIRCLE = "O", "R", "C"
MOST_FRAMES = 1_000  # flashes of rectangles with a hole in a file that have many pieces, so that others have room


class Shape:
    """A flash: its pieces on both sides, and what the lower side leaves out. One that is a pen has one convex piece a
    side. Where `between` reads it, `rows` has for each of its own pieces how many those of both sides are; `smaller` is
    one that it takes in its place, and `plainer` one of few pieces."""

    def __init__(self, lower, upper, lost=None, is_pen=False, rows=None):
        self.both, self.lost, self.is_pen, self.rows, self.smaller, self.plainer = (
            (lower, upper),
            lost,
            is_pen,
            rows,
            None,
            None,
        )


class Pen:
    """A passed on aperture: half the diameter of a circle, else None; for each side its even sizes. Where these are
    unlike, `is_read` says whether `between` reads it."""

    lost, is_pen = None, True

    def __init__(self, name, radius, sizes, is_read=False):
        self.name, self.radius, self.sizes, self.is_read = name, radius, sizes, is_read
        self.is_even = sizes[0] == sizes[1]
        self.both = tuple(solid(name, size) for size in sizes)


class Block:
    """What the objects of a block are, in order, and what their lower sides leave out."""

    def __init__(self, objects, lost):
        self.objects, self.lost = objects, lost


class Unbounded:
    """An aperture without bounds, and why."""

    def __init__(self, why):
        self.why = why


Aperture = Union[Shape, Pen, Unbounded]


def of(name: str, values: Sequence[Q], scale: int, macros: Dict[str, List[str]]) -> Optional[Aperture]:
    """The aperture of a definition; None where it is left to `check`."""
    if name == "P":
        return polygon(values, scale)
    if name not in (CIRCLE, RECTANGLE, OBROUND):
        if name not in macros:
            raise Refused("a macro that is not defined")
        return macro(name, macros[name], values, scale)
    sizes = 1 if name == CIRCLE else 2
    if len(values) > sizes + 1:
        raise Refused("a hole that is not round")
    if len(values) < sizes:
        return None
    lengths = [v * scale for v in values]
    return standard(name, lengths[:sizes], lengths[sizes] if len(values) > sizes else Q(0))


def even_down(length: Q) -> int:
    return 2 * (length / 2).__floor__()


def even_up(length: Q) -> int:
    return 2 * (length / 2).__ceil__()


def even_sizes(name: str, lengths: Sequence[Q]) -> Tuple[List[int], List[int], bool]:
    """Sizes of a shape within and round one, and whether `between` takes these: of an obround whose longer side alone
    is odd the other is 2 less and more, so that the ends of its middle line are no further off than the radii are.
    Where that leaves nothing, or is too wide, it is as it was."""
    low, high = [even_down(v) for v in lengths], [even_up(v) for v in lengths]
    short, is_read = lengths.index(min(lengths)), all(v.denominator == 1 for v in lengths)
    if name != OBROUND or low == high or low[short] != high[short]:
        return low, high, is_read
    is_read = is_read and 2 < low[short] and high[short] < MOST_WIDE
    if is_read:
        low[short], high[short] = low[short] - 2, high[short] + 2
    return low, high, is_read


def standard(name: str, lengths: Sequence[Q], hole: Q) -> Aperture:
    """A circle, rectangle or obround of lengths in u, fractions, with a round hole or none."""
    if min(lengths) < 0 or hole < 0:
        raise Refused("a size under 0")
    low, high, is_read = even_sizes(name, lengths)
    if hole and name == OBROUND:
        return pierced_obround(lengths, (low, high), hole)
    if name == CIRCLE and is_ring(*lengths, hole):
        return ring_shape(int(lengths[0]), int(hole))
    if name == RECTANGLE and is_frame(*lengths, hole):
        return frame_shape(*map(int, (*lengths, hole)))
    if hole:
        return pierced(name, lengths, (low, high), hole)
    if low != high and 0 in low:
        return Shape([], solid(name, high), "a size under 0.2 nm", rows=[(0, 1)] if is_read and min(lengths) else None)
    return Pen(name, lengths[0] / 2 if name == CIRCLE else None, (low, high), is_read)


def solid(name: str, sizes: Sequence[int]) -> List[Piece]:
    """The whole shape."""
    if min(sizes) <= 0:
        return []
    x, y = sizes[0] // 2, sizes[-1] // 2
    if name == CIRCLE:
        return [Capsule((0, 0), (0, 0), x)]
    if name == RECTANGLE:
        return [Area([(-x, -y), (x, -y), (x, y), (-x, y)])]
    a = (x - y, 0) if x > y else (0, y - x)
    return [Capsule((-a[0], -a[1]), a, min(x, y))]


def obround(w, h):
    """The figures of an obround: two discs and what lies between them."""
    r = min(w, h) / 2
    x, y = w / 2 - r, h / 2 - r
    ends = [("disc", (exact(s * x), exact(s * y)), r) for s in (-1, 1)]
    return ends + ([("convex", rectangle(*((-x, -r, x, r) if x else (-r, -y, r, y))))] if x or y else []) if r else []


def is_ring(d: Q, hole: Q) -> bool:
    """Whether a circle has a round hole as `between` reads it: a draw once round it has whole places."""
    return d % 2 == hole % 2 == (d + hole) % 4 == 0 < hole < d <= MOST_WIDE


def ring_shape(d: int, hole: int) -> Shape:
    """A circle with a round hole by a draw once round it."""
    spot = ((d + hole) // 4, 0)
    both = draw_bounds((0, 0), spot, spot, Q(d - hole, 4))[1]
    return Shape(*both, None if both[0] else "a shape with a hole", rows=[tuple(map(len, both))])


def is_frame(w: Q, h: Q, hole: Q) -> bool:
    """Whether a rectangle has a round hole as `between` reads it."""
    return w % 2 == h % 2 == hole % 2 == 0 < hole < min(w, h) and hole <= MOST_WIDE


def frame_shape(w: int, h: int, hole: int) -> Shape:
    """A rectangle with a round hole: above a region with a cut-in, below an area with a cut; the smaller one keeps off
    its border."""
    x, y, r = w // 2, h // 2, hole // 2
    around = rounded_contour(
        ((r, 0), ((0, 0), (r, 0), False), (x, 0), (x, y), (-x, y), (-x, -y), (x, -y), (x, 0), (r, 0)), False, True
    )
    upper = [Area(around.outer), *around.wide]
    shape, corners = framed(holed(RECTANGLE, (w, h), hole), upper), clear_frame(x, y, r)
    shape.smaller = framed([Area(corners)] if corners else [], upper)
    shape.plainer = Shape(shape.both[0], solid(RECTANGLE, (w, h)), shape.lost)
    return shape


def framed(lower, upper):
    return Shape(lower, upper, None if lower else "a shape with a hole", rows=[(len(lower), len(upper))])


def clear_frame(x, y, r):
    """Corners within a rectangle that keep off its sides, off a cut at the right, and off draws along eighth turns of a
    hole; None where these leave too little. Floats only choose places, which the program tests."""
    turns, keep = eighth_chain((0, 0), (r, 0), (r, 0)), eighth_radius((0, 0), (r, 0))
    far = (r + keep + 2) * 203 // 202 + 2  # an edge of 32 is nearer by less than a 200th
    if far > min(x, y) - 2 or r < 100 or leaves((0, 0), turns, r, r) > keep:
        return None
    around = [(round(far * cos(pi * k / 32)), round(far * sin(pi * k / 32))) for k in range(1, 64, 2)]
    edge = around[0][0]
    return [
        (x - 1, 1),
        (x - 1, y - 1),
        (1 - x, y - 1),
        (1 - x, 1 - y),
        (x - 1, 1 - y),
        (x - 1, -1),
        (edge, -1),
        *around[::-1],
        (edge, 1),
    ]


def is_pierced(lengths: Sequence[Q], hole: Q) -> bool:
    """Whether a shape has a round hole as `between` reads it where that is no draw and no region: all sizes are
    whole."""
    return all(v.denominator == 1 for v in (*lengths, hole)) and 0 < hole < min(lengths) and hole <= MOST_WIDE


def pierced(name, lengths, sizes, hole):
    """A circle or rectangle with another round hole: above without it, below clear of it by 1 u where `between` reads
    it."""
    is_read = is_pierced(lengths, hole)
    lower, upper = holed(name, sizes[0], even_up(hole) + 2 if is_read else hole), solid(name, sizes[1])
    return Shape(
        lower,
        upper,
        "a shape with a hole" if upper and not lower else None,
        rows=[(len(lower), len(upper))] if is_read else None,
    )


def pierced_obround(lengths, sizes, hole):
    """An obround with a round hole; `between` takes draws below, and above the shape without it."""
    shape = holed_shape(obround(*lengths), hole)
    if is_pierced(lengths, hole) and min(lengths) <= MOST_WIDE:
        lower, upper = slot_draws(*sizes[0], int(hole)), solid(OBROUND, sizes[1])
        shape.plainer = Shape(*shape.both, shape.lost)
        shape.smaller = framed(lower, upper)
        shape.rows = shape.smaller.rows
    return shape


def holed_shape(figures, hole):
    lower, upper, lost = without([*figures, ("off", ("disc", (exact(0), exact(0)), hole / 2))])
    return Shape(lower, upper, "a shape with a hole" if lost or upper and not lower else None)


def holed(name, sizes, hole):
    """Within a circle or rectangle with a round hole: a ring is what a pen leaves on a circle; of a rectangle an area
    with a cut to a polygon that lies round the hole, as even-odd means it."""
    if hole >= min(sizes):
        return []
    if name == CIRCLE:
        middle, pen = Q(sizes[0] + hole, 4), (sizes[0] - hole) / 4
        spot = (middle.__floor__(), 0)
        chain, most = arc_chain((0, 0), spot, spot)
        return chain_bounds(chain, most + 1, pen)[0]
    half = (hole / 2).__ceil__()
    arc = Arc((0, 0), (half, 0), (half, 0), True)
    x, y = sizes[0] // 2, sizes[1] // 2
    if not arc.lies_outside() or max(max(abs(p), abs(q)) for p, q in arc.outer) >= min(x, y):
        return []
    return [Area([(-x, -y), (x, -y), (x, 0)] + arc.outer[::-1] + [(x, 0), (x, y), (-x, y)])]


def polygon(values: Sequence[Q], scale: int) -> Aperture:
    """A regular polygon: diameter, corners, rotation, hole."""
    if not 2 <= len(values) <= 4 or values[1] not in range(3, 13) or min(values[:1] + values[3:]) < 0:
        raise Refused("polygon" if len(values) < 5 else "hole that is not round")
    if values[0] == 0:
        return Shape([], [])
    corners = regular(int(values[1]), Q(0), Q(0), values[0] * scale, values[2] if len(values) > 2 else 0)
    if len(values) == 4 and values[3]:
        return holed_shape([("convex", corners)], values[3] * scale)
    lower, upper = convex_bounds(corners)
    return Shape(lower, upper, None if lower else "a polygon", len(lower) < 2 > len(upper))


def macro(name: str, body: Sequence[str], values: Sequence[Q], scale: int) -> Aperture:
    found = list(figures(body, values, scale))
    lower, upper, lost = without(found)
    return Shape(lower, upper, f"{lost} of the primitives of macro {name}" if lost else None, rows=rows(found))


# ---- draws with pens


def swept(piece: Piece, a: Spot, b: Spot) -> List[Piece]:
    """What a convex piece covers along a line: the hull of the piece at both ends, or for a round one the hull of its
    middle line with draws round it."""
    moved = lambda spots: [(x + p, y + q) for p, q in (a, b) for x, y in spots]
    if isinstance(piece, Area):
        return [Area(hull(moved(piece.corners)))]
    spots, radius = hull(moved(piece[:2])), piece.radius
    if len(spots) < 3:
        return [Capsule(spots[0], spots[-1], radius)]
    return [Area(spots)] + [Capsule(p, q, radius) for p, q in zip(spots, spots[1:] + spots[:1])]


def hull(spots: Corners) -> List[Spot]:
    """The corners of the least convex area round some places, counterclockwise; of places in one line its ends."""
    spots, halves = sorted(set(spots)), []
    for order in (spots, spots[::-1]):
        half = []
        for spot in order:
            while len(half) > 1 and cross(half[-2], half[-1], spot) <= 0:
                half.pop()
            half.append(spot)
        halves += half[:-1]
    return halves or spots
