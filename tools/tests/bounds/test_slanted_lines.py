"""The contours of tools/boardnet_show/bounds/primitives/slanted_lines.py, by the arithmetic of the checks in crates/slants, written anew from their definitions."""
import random
import unittest
from math import cos, hypot, isqrt, pi, sin

from boardnet_show.bounds.primitives.slanted_lines import line_bounds
from boardnet_show.geometry.segments import cross, dot
from tests.fixtures.real_shapes import are_placed

FINE, BITS = 16_777_216, 2**128


def is_within(start, end, width, p):
    along, length = dot(start, end, p), dot(start, end, end)
    return 0 <= along <= length and (2 * cross(start, end, p)) ** 2 <= width**2 * length


def is_below(start, end, width, points):
    """The points are a closed contour, as a copper file has it."""
    length = dot(start, end, end)
    is_closed = len(points) > 3 and points[0] == points[-1]
    return (
        are_placed([start, end, *points])
        and length >= 1
        and is_closed
        and width**2 * length < BITS
        and all(is_within(start, end, width, p) for p in points)
    )


def keeps(start, end, width, root, b, c):
    reach = FINE * width * abs(dot(start, end, c) - dot(start, end, b))
    return reach < BITS and all(cross(b, c, q) >= 0 and reach <= cross(b, c, q) * root for q in (start, end))


def is_above(start, end, width, points):
    if not are_placed([start, end, *points]) or len(points) != 5 or points[0] != points[4]:
        return False
    b, c, d, e, _ = points
    root = isqrt(4 * FINE * FINE * dot(start, end, end))
    turns = [cross(*corner) for corner in ((b, c, d), (c, d, e), (d, e, b), (e, b, c))]
    return min(turns) >= 1 and all(keeps(start, end, width, root, *edge) for edge in ((b, c), (c, d), (d, e), (e, b)))


def lines(count):
    """Lines of a tenth of a nanometre to 79 cm, along any direction or nearly along an axis, of any even width up to 50 mm."""
    for k in range(count):
        length, width = 10 ** random.uniform(0, 9.9 if k % 3 else 3), 2 * int(
            10 ** random.uniform(0, 8.39 if k % 2 else 2)
        )
        angle = random.choice(
            (
                random.uniform(0, 2 * pi),
                random.randrange(4) * pi / 2 + random.choice((pi / 4, 10 ** random.uniform(-9, 0))),
            )
        )
        start = (random.randint(-(10**8), 10**8), random.randint(-(10**8), 10**8))
        end = (start[0] + round(length * cos(angle)), start[1] + round(length * sin(angle)))
        if start != end:
            yield start, end, width


class TestSlants(unittest.TestCase):
    def test_the_contours_are_taken(self):
        """What is drawn for a line, below and above; below it may be nothing, where the line is thin or short."""
        random.seed(63)
        for start, end, width in lines(3000):
            below, above = line_bounds(start, end, width)
            with self.subTest(start=start, end=end, width=width):
                ((corners,),) = above
                self.assertTrue(is_above(start, end, width, corners + corners[:1]))
                self.assertTrue(not below or is_below(start, end, width, below[0].corners + below[0].corners[:1]))
                if min(width, hypot(end[0] - start[0], end[1] - start[1])) > 8:
                    (((inner,),), off) = below, [
                        abs(v - w) for p, q in zip(below[0].corners, corners) for v, w in zip(p, q)
                    ]
                    self.assertEqual((len(inner), max(off) <= 8 or width > 10**6), (4, True))

    def test_one_u_more_is_refused(self):
        """The checks take the rectangle itself, where its corners are whole, and none that is a u wider below or less wide above."""
        start, end, width = (0, 0), (3000, 4000), 1000
        corners = [(400, -300), (3400, 3700), (2600, 4300), (-400, 300), (400, -300)]
        self.assertTrue(is_below(start, end, width, corners) and is_above(start, end, width, corners))
        for k in range(4):
            for off in ((1, 0), (0, 1), (-1, 0), (0, -1)):
                other = [(x + off[0], y + off[1]) if at % 4 == k else (x, y) for at, (x, y) in enumerate(corners)]
                with self.subTest(other=other):
                    self.assertFalse(is_below(start, end, width, other) and is_above(start, end, width, other))
        self.assertFalse(is_above(start, end, width, corners[::-1]))
        self.assertFalse(is_above(start, end, width + 1, corners))
        self.assertFalse(is_below(start, end, width - 1, corners))


if __name__ == "__main__":
    unittest.main()
