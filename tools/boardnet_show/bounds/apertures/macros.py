"""Aperture macros: expressions over fractions, primitives as real shapes, and their bounds."""
import re
from fractions import Fraction as Q
from typing import Any, List, Optional, Sequence, Tuple

from boardnet_show.bounds.polarity.dark_and_clear import Object, whole
from boardnet_show.bounds.primitives.real_polygons import convex_bounds, disc_bounds, polygon_bounds, whole_corners
from boardnet_show.bounds.primitives.regular_polygons import figure_of as regular_of, regular_bounds
from boardnet_show.bounds.primitives.slanted_lines import line_bounds
from boardnet_show.bounds.primitives.turned_figures import placed, placed_disc, turned_bounds, turned_disc_bounds
from boardnet_show.bounds.primitives.turned_outlines import outline_bounds, placed_outline
from boardnet_show.formats.macro_expressions import Expression, compact
from boardnet_show.geometry.exact import Refused, cos_sin, exact, minus, plus, root, times, turned
from boardnet_show.geometry.pieces import Both, Figure, Point


def rectangle(left: Q, low: Q, right: Q, high: Q) -> List[Point]:
    return [(exact(x), exact(y)) for x, y in ((left, low), (right, low), (right, high), (left, high))]


def vector_line(w: Q, x1: Q, y1: Q, x2: Q, y2: Q) -> List[Point]:
    """Flat ends; the half width to each side along the normal, which is an interval where the length is no fraction."""
    dx, dy = x2 - x1, y2 - y1
    low, high = root(dx * dx + dy * dy)
    if low <= 0:
        raise Refused("macro: a line of nearly no length")
    share = (w / 2 / high, w / 2 / low)
    nx, ny = times(share, exact(-dy)), times(share, exact(dx))
    at = lambda x, y, sign: (
        plus(exact(x), nx if sign > 0 else minus(nx)),
        plus(exact(y), ny if sign > 0 else minus(ny)),
    )
    return [at(x1, y1, -1), at(x2, y2, -1), at(x2, y2, 1), at(x1, y1, 1)]


def line(w: Q, x1: Q, y1: Q, x2: Q, y2: Q, degrees: Q) -> Figure:
    """Along an axis a rectangle from its lower left corner on, where the width is even or it is turned; else by its
    ends, where these are whole, and so is the width."""
    if (x1 == x2 or y1 == y2) and (w % 2 != 1 or degrees % 90):
        aside = (w / 2, 0) if x1 == x2 else (0, w / 2)
        (left, right), (low, high) = sorted((x1, x2)), sorted((y1, y2))
        return placed("convex", rectangle(left - aside[0], low - aside[1], right + aside[0], high + aside[1]), degrees)
    turn = cos_sin(degrees)
    ends, is_whole = whole_corners([turned((exact(x), exact(y)), turn) for x, y in ((x1, y1), (x2, y2))])
    if is_whole and w.denominator == 1:
        return ("line", *ends, int(w))
    return "convex", [turned(p, turn) for p in vector_line(w, x1, y1, x2, y2)]


def regular(n: int, x: Q, y: Q, d: Q, first: Q = 0) -> List[Point]:
    """Corners on the circle of diameter d about (x, y), the first one at the angle `first`."""
    out = []
    for k in range(n):
        c, s = cos_sin(Q(360 * k, n) + first)
        out.append((plus(exact(x), times(exact(d / 2), c)), plus(exact(y), times(exact(d / 2), s))))
    return out


COUNTS = {1: (5, 6), 2: (8,), 20: (8,), 21: (7,), 22: (7,), 5: (7,)}


def figures(body: Sequence[str], parameters: Sequence[Q], scale: int) -> List[Figure]:
    """The real shapes of a macro's body, turned, in u: ("disc", centre, radius), ("line", start, end, width),
    ("turned", corners, angle) ("turned disc", centre, radius, angle), ("turned outline", corners, angle) and
    ("regular", corners, diameter in parts, angle, centre, turn) of whole numbers, ("convex", corners) or ("outline",
    corners)."""
    variables = {k + 1: value for k, value in enumerate(parameters)}
    for word in body:
        word = compact(word)
        if not word or word.startswith("0"):
            continue
        match = re.fullmatch(r"\$(\d{1,9})=(.*)", word)
        if match:
            variables[int(match[1])] = Expression(match[2], variables).value()
            continue
        values = [Expression(part, variables).value() for part in word.split(",")]
        figure = primitive(values, scale)
        if figure:
            yield figure


def primitive(values, scale):
    code = values[0]
    if code == 6:
        raise Refused("macro: moire")
    if code == 7:
        return thermal(values, scale)
    if code != 4 and (code not in COUNTS or len(values) not in COUNTS[code]):
        raise Refused(f"macro: no primitive {code} with {len(values) - 1} values")
    if len(values) < 2 or values[1] not in (0, 1):
        raise Refused("macro: exposure not 0 or 1")
    u = [v * scale for v in values]
    degrees = values[-1] if code != 1 or len(values) == 6 else Q(0)
    if code == 1:
        return sized(u[2]) and exposed(values[1], placed_disc((exact(u[3]), exact(u[4])), u[2] / 2, degrees))
    corners = None
    if code in (2, 20):
        if sized(u[2]) and u[3:5] != u[5:7]:
            return exposed(values[1], line(*u[2:7], degrees))
    elif code == 21:
        if sized(u[2]) and sized(u[3]):
            corners = rectangle(u[4] - u[2] / 2, u[5] - u[3] / 2, u[4] + u[2] / 2, u[5] + u[3] / 2)
    elif code == 22:
        if sized(u[2]) and sized(u[3]):
            corners = rectangle(u[4], u[5], u[4] + u[2], u[5] + u[3])
    elif code == 5:
        if values[2] not in range(3, 13):
            raise Refused("macro: polygon of no 3 to 12 corners")
        if sized(u[5]):
            known = regular_of(values[2], u[3:5], u[5], degrees)
            if known:
                return exposed(values[1], known)
            corners = regular(int(values[2]), u[3], u[4], u[5])
    else:
        corners = outline(values, u)
        return corners and exposed(values[1], placed_outline(corners, degrees))
    return corners and exposed(values[1], begun(placed("convex", corners, degrees)))


def begun(figure: Figure) -> Figure:
    """A rectangle of an odd size as `between` takes it, from its lower left corner on; any other figure as it is."""
    if figure[0] != "convex" or not is_fine(figure[1]):
        return figure
    first = figure[1].index(min(figure[1]))
    return "convex", figure[1][first:] + figure[1][:first]


def exposed(on: Q, figure: Figure) -> Figure:
    return figure if on else ("off", figure)


def thermal(values, scale):
    """A ring without a cross: dark, clear and twice clear."""
    if len(values) != 7 or not 0 <= values[4] < values[3] or values[5] < 0:
        raise Refused("macro: no thermal")
    x, y, outer, inner, gap = [v * scale for v in values[1:6]]
    turn = cos_sin(values[6])
    at, off = turned((exact(x), exact(y)), turn), []
    if inner:
        off.append(("disc", at, inner / 2))
    if gap:
        bars = ((outer, gap / 2), (gap / 2, outer))
        off += [("convex", [turned(p, turn) for p in rectangle(x - w, y - h, x + w, y + h)]) for w, h in bars]
    return ("cut", [("disc", at, outer / 2)] + [("off", figure) for figure in off])


def sized(length: Q) -> bool:
    if length < 0:
        raise Refused("macro: a size under 0")
    return length > 0


def outline(values: Sequence[Q], u: Sequence[Q]) -> Optional[List[Point]]:
    n = values[2] if len(values) > 2 else 0
    if n != int(n) or not 3 <= n <= 5000 or len(values) != 2 * n + 6:
        raise Refused("macro: outline with another count of corners")
    spots = list(zip(u[3:-1:2], u[4:-1:2]))
    if spots[0] != spots[-1]:
        raise Refused("macro: outline not closed")
    return [(exact(x), exact(y)) for x, y in spots[:-1]] if sum(p != q for p, q in zip(spots, spots[1:])) > 2 else None


def bounds_of(figure: Figure) -> Both:
    if figure[0] == "cut":
        return without(figure[1])[:2]
    return BOUNDS[figure[0]](*figure[1:])


BOUNDS = {
    "disc": disc_bounds,
    "line": line_bounds,
    "turned": turned_bounds,
    "turned disc": turned_disc_bounds,
    "turned outline": outline_bounds,
    "regular": regular_bounds,
    "convex": convex_bounds,
    "outline": polygon_bounds,
}


def without(figures_in_order):
    """Pieces of LOWER and UPPER of figures, some of which take away from those before, and how many LOWER leaves
    out."""
    objects, lost = [], 0
    for n, figure in enumerate(figures_in_order):
        low, high = bounds_of(figure[1] if figure[0] == "off" else figure)
        objects.append(Object(figure[0] != "off", (low, high), n))
        lost += figure[0] != "off" and not low
    return (*whole(objects), lost)


def rows(figures_in_order):
    """Of figures that `between` reads, as they stand, as slanted lines, turned or regular, how many pieces of both
    sides each has; else None."""
    told = [row(*figure) for figure in figures_in_order]
    return None if None in told else told


def row(kind: str, *parts: Any) -> Optional[Tuple[int, int]]:
    if kind == "turned outline":
        return tuple(map(len, outline_bounds(*parts)))
    is_read = (
        kind in ("line", "turned", "turned disc", "regular")
        or kind == "convex"
        and is_fine(parts[0])
        or kind == "disc"
        and whole_corners(parts[:1])[1]
        and (2 * parts[1]).denominator == 1
    )
    if is_read:
        return len(BOUNDS[kind](*parts)[0]), 1
    return (1, 1) if kind in ("convex", "outline") and whole_corners(parts[0])[1] else None


def is_fine(corners: Sequence[Point]) -> bool:
    """Whether they are those of a rectangle along the axes with a whole middle and whole sizes, one of them odd."""
    sides = [sorted({end for corner in corners for end in corner[k]}) for k in range(2)]
    if len(corners) != 4 or any(len(ends) != 2 for ends in sides):
        return False
    return all((a + b) % 2 == 0 == (b - a) % 1 for a, b in sides) and any((b - a) % 2 for a, b in sides)
