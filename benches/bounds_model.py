"""Random copper files of the forms that `show` puts between bounds, and whether a place is copper: by intervals of whole numbers.

It shares no code with tools/boardnet_show. A place is two whole numbers, quarters of a u (a tenth of a nanometre). An answer is True,
False, or None: on a border, or not told by the intervals. Numbers are intervals (low, high) in units of ONE.
"""
from fractions import Fraction as Q
from math import isqrt

FINE = 4
ONE = 1 << 64  # what is multiplied is shifted by 64


# ---- intervals


def number(q):
    """An interval about a fraction of quarters of a u."""
    q = Q(q) * ONE
    low = q.numerator // q.denominator
    return low, low + (q.denominator != 1)


def plus(a, b):
    return a[0] + b[0], a[1] + b[1]


def minus(a, b):
    return a[0] - b[1], a[1] - b[0]


def times(a, b):
    (p, q), (r, s) = a, b
    if p == q and r == s:
        v = p * r
        return v >> 64, -(-v >> 64)
    four = sorted((p * r, p * s, q * r, q * s))
    return four[0] >> 64, -(-four[3] >> 64)


def square(a):
    p, q = a
    if p == q:
        return p * p >> 64, -(-p * p >> 64)
    low, high = sorted((abs(p), abs(q)))
    return (0 if p <= 0 <= q else low * low >> 64), -(-high * high >> 64)


def positive(a):
    return True if a[0] > 0 else False if a[1] < 0 else None


def every(*answers):
    return False if False in answers else None if None in answers else True


def some(*answers):
    return True if True in answers else None if None in answers else False


def opposite(answer):
    return None if answer is None else not answer


def arctangent(n):
    """Of 1 / n, in units of ONE squared, cut."""
    term, total, k = ONE * ONE // n, 0, 1
    while term:
        total += term // k if k % 4 == 1 else -(term // k)
        term, k = term // (n * n), k + 2
    return total


PI = 4 * (4 * arctangent(5) - arctangent(239))  # by Machin; at most some hundreds of ONE squared's units off


def cosine(degrees):
    """By its series, after whole turns; each term is cut, so 1,000 units are more than all that is off."""
    x = (PI * Q(degrees % 360) / 180).__floor__()
    term, total, k = ONE * ONE, 0, 0
    while term:
        total += term
        term, k = -term * x // (ONE * ONE) * x // (ONE * ONE * (k + 1) * (k + 2)), k + 2
        if -1 <= term <= 0:
            break
    return (total >> 64) - 4, (total >> 64) + 4


def turn_of(degrees):
    if degrees % 90 == 0:
        return [number(v) for v in ((1, 0), (0, 1), (-1, 0), (0, -1))[int(degrees % 360) // 90]]
    return [cosine(degrees), cosine(degrees - 90)]


# ---- shapes: functions of a place of intervals


def disc(c, r):
    c, r2 = (number(c[0]), number(c[1])), square(number(r))
    return lambda p: positive(minus(r2, plus(square(minus(p[0], c[0])), square(minus(p[1], c[1])))))


def half_plane(a, b):
    """Left of a to b."""
    a, d = (number(a[0]), number(a[1])), (number(b[0] - a[0]), number(b[1] - a[1]))
    return lambda p: positive(minus(times(d[0], minus(p[1], a[1])), times(d[1], minus(p[0], a[0]))))


def both(parts):
    def inside(p):
        answer = True
        for part in parts:
            said = part(p)
            if said is False:
                return False
            answer = answer and said
        return answer

    return inside


def either(parts):
    def inside(p):
        answer = False
        for part in parts:
            said = part(p)
            if said:
                return True
            answer = None if said is None else answer
        return answer

    return inside


def within(part, middle, reach):
    """A shape that has nothing further than `reach` from a place."""
    reach = int(reach) + 2
    box = [number(int(v) + side * reach)[0] for v in middle for side in (-1, 1)]
    return (
        lambda p: part(p)
        if box[0] <= p[0][1] and p[0][0] <= box[1] and box[2] <= p[1][1] and p[1][0] <= box[3]
        else False
    )


def box(c, w, h):
    x, y = Q(w) / 2, Q(h) / 2
    spots = [(c[0] - x, c[1] - y), (c[0] + x, c[1] - y), (c[0] + x, c[1] + y), (c[0] - x, c[1] + y)]
    return both([half_plane(a, b) for a, b in zip(spots, spots[1:] + spots[:1])])


def beside(a, b, r):
    """Between the ends of a line and at most r from it; none where it has no length."""
    d = (b[0] - a[0], b[1] - a[1])
    if d == (0, 0):
        return lambda p: False
    dx, dy, length, reach = (
        number(d[0]),
        number(d[1]),
        number(d[0] ** 2 + d[1] ** 2),
        number(Q(r) ** 2 * (d[0] ** 2 + d[1] ** 2)),
    )
    x, y = number(a[0]), number(a[1])

    def inside(p):
        u, v = minus(p[0], x), minus(p[1], y)
        along = plus(times(u, dx), times(v, dy))
        return every(
            positive(along),
            positive(minus(length, along)),
            positive(minus(reach, square(minus(times(u, dy), times(v, dx))))),
        )

    return inside


def capsule(a, b, r):
    return either([disc(a, r), disc(b, r), beside(a, b, r)]) if r else lambda p: False


def parity(spots):
    """Even-odd of a closed chain, by a ray upwards."""
    chain = [
        (half_plane(a, b), number(a[0]), number(b[0])) for a, b in zip(spots, spots[1:] + spots[:1]) if a[0] != b[0]
    ]

    def inside(p):
        odd = False
        for left, x, to in chain:
            starts, ends = positive(minus(p[0], x)), positive(minus(p[0], to))
            if starts is None or ends is None:
                return None
            if starts != ends:
                above = left(p)
                if above is None:
                    return None
                odd ^= above != starts  # the edge lies above the place
        return odd

    return inside


def regular(c, d, n, degrees):
    """By the middles of its sides."""
    turns, far = [turn_of(Q(360 * k + 180, n) + degrees) for k in range(n)], times(
        number(Q(d) / 2), turn_of(Q(180, n))[0]
    )
    at = (number(c[0]), number(c[1]))
    return both(
        [
            lambda p, t=t: positive(minus(far, plus(times(minus(p[0], at[0]), t[0]), times(minus(p[1], at[1]), t[1]))))
            for t in turns
        ]
    )


def changed(part, at, mirror=(False, False), degrees=Q(0), size=Q(1)):
    """A shape mirrored, turned, sized, moved: the place is brought back."""
    c, s = turn_of(-degrees)
    x, y, less = number(at[0]), number(at[1]), number(1 / Q(size))

    def inside(p):
        u, v = times(minus(p[0], x), less), times(minus(p[1], y), less)
        u, v = minus(times(u, c), times(v, s)), plus(times(u, s), times(v, c))
        return part(((-u[1], -u[0]) if mirror[0] else u, (-v[1], -v[0]) if mirror[1] else v))

    return inside


def without(part, hole):
    return lambda p: every(part(p), opposite(hole(p)))


def layered(parts):
    """Dark and clear ones in their order."""

    def inside(p):
        state = False
        for dark, part in parts:
            said = part(p)
            state = dark if said else state if said is False or state == dark else None
        return state

    return inside


# ---- arcs: counterclockwise from a to b about c; equal ends are the whole circle


def sector(c, a, b):
    if a == b:
        return lambda p: True
    left, right = half_plane(c, a), half_plane(c, b)
    if (a[0] - c[0]) * (b[1] - c[1]) - (a[1] - c[1]) * (b[0] - c[0]) > 0:
        return lambda p: every(left(p), opposite(right(p)))
    return lambda p: some(left(p), opposite(right(p)))


def distance(p, q):
    """About the distance of two whole places, cut."""
    return isqrt((p[0] - q[0]) ** 2 + (p[1] - q[1]) ** 2)


def bent(c, a, b, r, scale):
    """(sure, perhaps) of a draw along an arc, with half a pen r: copper of every curve between the distances of its ends, and all
    that is copper of some. `scale` is the size of a u."""
    near, far = sorted((distance(c, a), distance(c, b)))
    if a != b and (a[0] - c[0]) * (b[1] - c[1]) < (a[1] - c[1]) * (b[0] - c[0]) and near != far:
        near, far = 2 * near - far - scale, 2 * far - near + scale
    far, within, ends = far + 1, sector(c, a, b), either([disc(a, r), disc(b, r)])
    ring = lambda low, high: without(disc(c, high), disc(c, low)) if low > 0 else disc(c, high)
    sure = either([ends, both([within, ring(far - r, near + r)])]) if near + r > max(0, far - r) else ends
    wide = r + far - near + 8
    return sure, either([disc(a, wide), disc(b, wide), both([within, ring(near - r, far + r)])])


def bow(c, a, b):
    """Between a chord and an exact arc."""
    r2 = number((a[0] - c[0]) ** 2 + (a[1] - c[1]) ** 2)
    x, y = number(c[0]), number(c[1])
    inside = lambda p: positive(minus(r2, plus(square(minus(p[0], x)), square(minus(p[1], y)))))
    return inside if a == b else both([inside, half_plane(b, a)])


def between(sure, perhaps):
    """Told where one of two shapes tells it."""
    return lambda p: True if sure(p) else False if perhaps(p) is False else None


def odd_of(parts):
    """In an odd number of parts."""

    def inside(p):
        told = [part(p) for part in parts]
        return None if None in told else sum(told) % 2 == 1

    return inside


def swept_box(a, b, w, h):
    """A rectangle along a line: for some share of the line both distances are within its halves."""
    sizes = [(Q(v) / 2).as_integer_ratio() for v in (w, h)]

    def inside(p):
        """Of the shares, as (numerator, denominator above 0), the greatest least one and the least greatest one."""
        low, high = (0, 1), (1, 1)
        for k, (half, per) in enumerate(sizes):
            at, d = (p[k][0] // ONE - a[k]) * per, (b[k] - a[k]) * per
            if d == 0:
                if abs(at) >= half:
                    return None if abs(at) == half else False
                continue
            one, two = ((at - half, d), (at + half, d)) if d > 0 else ((-at - half, -d), (half - at, -d))
            low = one if one[0] * low[1] > low[0] * one[1] else low
            high = two if two[0] * high[1] < high[0] * two[1] else high
        apart = high[0] * low[1] - low[0] * high[1]
        return None if apart == 0 else apart > 0

    return inside


def swept_capsule(a, b, s, r):
    """An obround, its middle line from -s to s, along a line."""
    spots = [(p[0] + k * s[0], p[1] + k * s[1]) for p, k in ((a, -1), (b, -1), (b, 1), (a, 1))]
    return either([parity(spots)] + [capsule(p, q, r) for p, q in zip(spots, spots[1:] + spots[:1])])
