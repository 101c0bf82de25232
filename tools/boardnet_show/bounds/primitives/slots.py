"""Draws within an obround that keep off a round hole in its middle."""
from fractions import Fraction as Q
from math import isqrt
from typing import List

from boardnet_show.geometry.arcs import draw_bounds
from boardnet_show.geometry.exact import ceil_root
from boardnet_show.geometry.pieces import Capsule

STRIPS = 64  # at most, above the middle of the hole, and below


def slot_draws(width: int, height: int, hole: Q) -> List[Capsule]:
    """Draws with round pens, of even sizes; none where the hole leaves no room. They go round the hole, along the
    border, and between both."""
    far, round_, clear = abs(width - height) // 2, min(width, height) // 2, -(-hole // 2) + 1
    pen = (round_ - clear) // 2
    if pen < 1:
        return []
    found = [Capsule((-far, y), (far, y), pen) for y in (pen - round_, round_ - pen)]
    for centre, start, end in (
        ((0, 0), (clear + pen, 0), (clear + pen, 0)),
        ((far, 0), (far, pen - round_), (far, round_ - pen)),
        ((-far, 0), (-far, round_ - pen), (-far, pen - round_)),
    ):
        found += draw_bounds(centre, start, end, Q(pen))[1][0]
    found += strips(far, round_, clear, max(pen, min(clear // 8, (far + round_ - clear) // 4)))
    return found if width >= height else [Capsule((-a[1], a[0]), (-b[1], b[0]), r) for a, b, r in found]


def strips(far: int, round_: int, clear: int, pen: int) -> List[Capsule]:
    """Level draws with one pen on both sides of a hole, as long as they fit."""
    found, most = [], min(STRIPS, -(-round_ // pen))
    for k in range(-most, most + 1):
        y = max(min(k * pen, round_ - pen), pen - round_)
        first, last = ceil_root(max((clear + pen) ** 2 - y * y, 0)), far + isqrt((round_ - pen) ** 2 - y * y)
        if first <= last:
            found += [Capsule((first, y), (last, y), pen), Capsule((-last, y), (-first, y), pen)]
    return found
