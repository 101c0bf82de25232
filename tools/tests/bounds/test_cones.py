"""The turns by which turned figures are judged hold the angle: that is trusted of `slants`, and compared here with sums of 60 digits."""
import decimal
import os
import random
import re
import unittest

from boardnet_show.bounds.primitives import cones
from tests.fixtures import common

PI = decimal.Decimal("3.14159265358979323846264338327950288419716939937510582097494")
DIGITS = decimal.Context(prec=60)
NEAR = decimal.Decimal("1e-50")
ROWS = re.compile(r"\((\d[\d_]*), \((\d[\d_]*), (\d[\d_]*)\)\)")


def sums(x):
    """Cosine and sine of a number from 0 to 2, less than `NEAR` off: what is left out of either is less than the term after it."""
    parts, term, k = [decimal.Decimal(0), decimal.Decimal(0)], decimal.Decimal(1), 0
    while term > NEAR / 1000:
        parts[k % 2] = (DIGITS.add if k % 4 < 2 else DIGITS.subtract)(parts[k % 2], term)
        k += 1
        term = DIGITS.divide(DIGITS.multiply(term, x), k)
    return parts


def angles():
    yield from range(0, cones.RIGHT_ANGLE, cones.DEGREE // 4)
    yield from range(1, 1000)
    yield from (4 * cones.RIGHT_ANGLE // corners for corners in range(3, 13))
    yield from range(cones.RIGHT_ANGLE - 1000, cones.RIGHT_ANGLE)
    known = random.Random(63)
    yield from (known.randrange(cones.RIGHT_ANGLE) for _ in range(10_000))


def rows():
    """Those of the crate's tests: angles with whole cosines and sines."""
    with open(os.path.join(common.TOP, "crates", "slants", "src", "tests.rt"), encoding="utf-8") as file:
        text = file.read().split("static ANGLE_ROWS")[1].split("\n];\n")[0]
    return [tuple(int(it.replace("_", "")) for it in row) for row in ROWS.findall(text)]


class Cones(unittest.TestCase):
    def test_whole_numbers_are_less_than_one_off(self):
        """So they are of each angle that is less than a part more: cosine and sine of half of it lie between these."""
        for angle in angles():
            for more, least in (0, "0.51"), (1, "0.6"):
                half = DIGITS.divide(DIGITS.multiply(angle + more, PI), 360 * cones.DEGREE)
                for whole, exact in zip(cones.way_of(angle), sums(half)):
                    off = abs(DIGITS.subtract(whole, DIGITS.multiply(cones.RADIUS, exact)))
                    self.assertLess(off + cones.RADIUS * NEAR, decimal.Decimal(least), angle)

    def test_sums_are_those_of_right_angles(self):
        cosine, sine = sums(DIGITS.divide(PI, 4))
        self.assertLess(abs(DIGITS.subtract(cosine, sine)), 2 * NEAR)
        self.assertLess(abs(DIGITS.subtract(DIGITS.multiply(cosine, cosine), decimal.Decimal("0.5"))), 4 * NEAR)

    def test_the_rows_of_the_crate_say_the_same(self):
        found = rows()
        self.assertGreaterEqual(len(found), 12)
        for angle, x, y in found:
            self.assertEqual(cones.way_of(angle), (x, y), angle)
