"""Exact numbers for bounds: roots, and intervals of fractions that hold sines, cosines and turned places. There is no
float."""
import re
from fractions import Fraction as Q
from math import isqrt
from typing import Optional, Tuple

from .pieces import Interval, Number, Point, Spot
from typing import Optional

DECIMAL = re.compile(r"[+-]?(\d+\.?\d*|\.\d+)")
MOST_DIGITS = 60  # of a number in a file
MOST_BITS = 1000  # of a number that macros reckon
PI = Q(314159265358979323846264338327950288419716939937510, 10**50)  # cut: the next digits are 58..
FIX = 1 << 120
ULPS = 200  # of FIX: more than all cuts of a series of 40 terms


class Refused(Exception):
    """What no bound is made for, by name."""


# ---- numbers of files


def decimal(text: str) -> Optional[Q]:
    """A decimal as a fraction; None where it is none."""
    if not DECIMAL.fullmatch(text):
        return None
    if len(text) > MOST_DIGITS:
        raise Refused(f"a number of over {MOST_DIGITS} digits")
    return Q(text)


def limited(q: Q) -> Q:
    if q.numerator.bit_length() > MOST_BITS or q.denominator.bit_length() > MOST_BITS:
        raise Refused(f"macro: a number of over {MOST_BITS} bits")
    return q


# ---- roots


def root_up(q: Number) -> Q:
    """A fraction that is at least the square root of q, and 0 for 0."""
    q = Q(q)
    return Q(0) if q == 0 else Q(isqrt(-(-q.numerator * 10**12 // q.denominator)) + 1, 10**6)


def floor_root(q: Number) -> int:
    """The floor of the square root of a fraction: that of its floor is the same."""
    return isqrt(q.numerator // q.denominator) if isinstance(q, Q) else isqrt(q)


def ceil_root(q: Number) -> int:
    n = floor_root(q)
    return n if n * n == q else n + 1


def root(q: Q) -> Interval:
    """An interval that holds the square root of q; one number where the root is a fraction that twenty decimals
    show."""
    low = Q(isqrt(q.numerator * 10**40 // q.denominator), 10**20)
    return (low, low) if low * low == q else (low, low + Q(1, 10**20))


# ---- intervals: (low, high)


def exact(q: Number) -> Interval:
    return Q(q), Q(q)


def minus(a: Interval) -> Interval:
    return -a[1], -a[0]


def plus(a: Interval, b: Interval) -> Interval:
    return a[0] + b[0], a[1] + b[1]


def times(a: Interval, b: Interval) -> Interval:
    four = [x * y for x in a for y in b]
    return min(four), max(four)


def series(x: int, term: int, k: int) -> int:
    """x^n / n! with alternating signs, from a first term on, in units of FIX."""
    total = 0
    while term:
        total += term
        term = -term * x * x // (FIX * FIX * k * (k + 1))
        if term == -1:
            break
        k += 2
    return total


def cos_sin(degrees: Number) -> Tuple[Interval, Interval]:
    """Two intervals; one number each at whole right angles."""
    turns, rest = divmod(Q(degrees) % 360, 90)
    if rest == 0:
        c, s = exact(1), exact(0)
    else:
        arc = rest * PI / 180 * FIX
        x = arc.numerator // arc.denominator
        c, s = ((Q(v - ULPS, FIX), Q(v + ULPS, FIX)) for v in (series(x, FIX, 1), series(x, x, 2)))
    for _ in range(int(turns)):
        c, s = minus(s), c
    return c, s


# ---- places of intervals: (x, y)


def pointed(spot: Spot) -> Point:
    """A whole place as one of intervals."""
    return exact(spot[0]), exact(spot[1])


def turned(point: Point, turn: Tuple[Interval, Interval]) -> Point:
    """A place turned counterclockwise about the origin, by a cosine and a sine."""
    (x, y), (c, s) = point, turn
    return plus(times(x, c), minus(times(y, s))), plus(times(x, s), times(y, c))


def cross_least(a: Point, b: Point, p: Point) -> Q:
    """A lower bound of the cross product of b - a and p - a."""
    one = times(plus(b[0], minus(a[0])), plus(p[1], minus(a[1])))
    other = times(plus(b[1], minus(a[1])), plus(p[0], minus(a[0])))
    return plus(one, minus(other))[0]


def whole_near(point: Point) -> Tuple[Spot, Q]:
    """The nearest whole place, and a bound of its distance."""
    spot, off = [], Q(0)
    for low, high in point:
        n = round((low + high) / 2)
        spot.append(n)
        off += max(abs(n - low), abs(high - n)) ** 2
    return (spot[0], spot[1]), root_up(off)
