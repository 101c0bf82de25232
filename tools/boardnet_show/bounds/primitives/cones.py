"""Turns by about an angle, by whole numbers: the rule of the crate `slants`, by which `between` tests bounds of turned
figures.

An angle is a whole number of parts of a degree, below a right angle. A turn is told by a whole way: it is by twice its
angle.
"""
from typing import Sequence, Tuple

from boardnet_show.geometry.pieces import Spot

DEGREE = 10**7  # in parts
RIGHT_ANGLE = 90 * DEGREE
ONE = 10**18  # numbers are whole parts of it
PI = 3_141_592_653_589_793_238
RADIUS = 10**8 - 1  # of ways, about
COSINE, SINE = (2, 12, 30, 56, 90, 132), (6, 20, 42, 72, 110, 156)


def series(square: int, parts: Sequence[int]) -> int:
    """1 - t / k (1 - t / l (1 - ..)) for the parts k, l, .., by the square t of half the angle."""
    total = ONE
    for part in reversed(parts):
        total = ONE - square * total // ONE // part
    return total


def way_of(angle: int) -> Tuple[int, ...]:
    """Less than 1 off RADIUS times the cosine and the sine of half the angle."""
    half = angle * PI // (360 * DEGREE)
    square = half * half // ONE
    return tuple(
        (part * RADIUS + ONE // 2) // ONE for part in (series(square, COSINE), half * series(square, SINE) // ONE)
    )


def cone_of(angle: int) -> Tuple[Spot, Spot]:
    """The ways of two turns, one by less than the angle and one by more."""
    x, y = way_of(angle)
    return (x + 1, y - 1), (x - 1, y + 1)
