"""The chains of tools/boardnet_show/geometry/arcs.py, by the arithmetic of the checks in crates/arcs, written anew from their definitions."""
import random
import unittest
from fractions import Fraction as Q
from math import atan2, cos, hypot, isqrt, pi, sin

from boardnet_show.geometry import arcs as script
from boardnet_show.geometry.arcs import arc_chain, draw_bounds
from boardnet_show.geometry.exact import Refused
from boardnet_show.geometry.segments import cross, dot


def is_meant(centre, start, end):
    """Ends in one line with the centre are taken, and those where the circle through both with the nearest centre goes round the given one."""
    swing, apart = cross(centre, start, end), dot(start, end, end)
    unlike = abs(dot(centre, start, start) - dot(centre, end, end))
    return swing == 0 or unlike <= apart or unlike <= 2 * abs(swing)


def spread(centre, start, end):
    """Past a half turn the squares of a curve's distances leave those of the ends by so much."""
    swing, apart = cross(centre, start, end), dot(start, end, end)
    unlike = abs(dot(centre, start, start) - dot(centre, end, end))
    return unlike * (abs(swing) // apart + 1) if swing < 0 else 0


def ring(centre, start, end, k):
    """How near to the centre and how far from it a chord may be that is at most k off."""
    low, high = sorted((dot(centre, start, start), dot(centre, end, end)))
    low, high = max(low - spread(centre, start, end), 0), high + spread(centre, start, end)
    most = isqrt(high) + (isqrt(high) ** 2 < high)
    return max(most - k, 0), isqrt(low) + k


def is_chord(centre, near, far, a, b):
    turn = cross(centre, a, b)
    lies_within = max(dot(centre, a, a), dot(centre, b, b)) <= far * far
    return turn > 0 and lies_within and near * near * dot(a, b, b) <= turn * turn < 2**128


def is_in_turn(centre, start, end, a, b):
    turn = cross(centre, start, end)
    left, right = ([cross(centre, start, p) >= 0 for p in (a, b)], [cross(centre, end, p) <= 0 for p in (a, b)])
    if turn > 0:
        return all(left) and all(right)
    if turn < 0:
        return all(left) or right[1] and (left[0] or right[0])
    return all(left) if dot(centre, start, end) < 0 else start == end


def is_below(centre, start, end, width, chain, r):
    half = width // 2
    if half < r or not chain or not is_meant(centre, start, end):
        return False
    near, far = ring(centre, start, end, half - r)
    links = list(zip(chain, chain[1:]))
    return all(is_chord(centre, near, far, a, b) and is_in_turn(centre, start, end, a, b) for a, b in links)


def is_above(centre, start, end, width, chain, r):
    half = width - width // 2
    if r < half or len(chain) < 2 or chain[0] != start or chain[-1] != end or not is_meant(centre, start, end):
        return False
    near, far = ring(centre, start, end, r - half)
    return all(is_chord(centre, near, far, a, b) for a, b in zip(chain, chain[1:]))


def is_loop(centre, start, end):
    return dot(centre, start, start) != dot(centre, end, end) and cross(centre, start, end) == 0 <= dot(
        centre, start, end
    )


def arcs(count):
    """Arcs of a tenth of a nanometre to 79 mm: ends at one distance (mirror images of a spot), at two by a rounding or by more, in one
    line with the centre, and whole turns."""
    for k in range(count):
        radius, angle = int(10 ** random.uniform(0, 8.9 if k % 2 else 3)), random.choice(
            (random.uniform(0, 2 * pi), random.randrange(4) * pi / 2)
        )
        centre = (random.randint(-(10**8), 10**8), random.randint(-(10**8), 10**8))
        place = lambda t, far=1: (round(far * radius * cos(t)), round(far * radius * sin(t)))
        u, v = place(angle)
        mirrored, n = [(u, v), (-v, u), (-u, -v), (v, -u), (u, -v), (v, u), (-u, v), (-v, -u)], random.choice(
            (-2, -1, 2, 3)
        )
        further = random.choice(
            (random.uniform(0.01, 6.25), 10 ** random.uniform(-6, 0), -(10 ** random.uniform(-6, 0)))
        )
        x, y = (
            random.choice(mirrored),
            place(angle + further),
            (u, v),
            place(angle + further, random.uniform(0.7, 1.4)),
            (n * u, n * v),
        )[k % 5]
        start, end = ((centre[0] + p, centre[1] + q) for p, q in ((u, v), (x, y)))
        if centre not in (start, end) and is_meant(centre, start, end):
            yield centre, start, end


def chain_of(draws):
    """The spots and the radius of draws that each begin where the one before ended."""
    (radius,) = {draw.radius for draw in draws}
    if any(one.end != other.start for one, other in zip(draws, draws[1:])):
        raise AssertionError("no chain")
    return [draws[0].start, *(draw.end for draw in draws)], radius


class TestArcChains(unittest.TestCase):
    def test_the_chains_are_taken(self):
        """What is drawn for an arc, below and above; below it may be nothing, where the pen is thin or the arc is a whole turn or none."""
        random.seed(62)
        for centre, start, end in arcs(3000):
            half = random.choice((random.randint(1, 3_000_000), random.randint(1, 3_000)))
            _, (below, above) = draw_bounds(centre, start, end, Q(half))
            with self.subTest(centre=centre, start=start, end=end, half=half):
                self.assertTrue(not below or is_below(centre, start, end, 2 * half, *chain_of(below)))
                self.assertTrue(is_above(centre, start, end, 2 * half, *chain_of(above)))
                self.assertEqual(bool(below), half > above[0].radius - half and not is_loop(centre, start, end))

    def test_ends_that_are_unlike_have_few_chords(self):
        """Where draws are millimetres wide, since nobody knows where the arc is, short chords would be thousands of edges that cross."""
        mm = 10**7
        for centre, start, end in (
            ((0, 0), (10 * mm, 0), (0, mm)),
            ((0, 0), (mm, 0), (-10 * mm, 10)),
            ((8 * mm, -9 * mm), (9 * mm, -9 * mm), (9 * mm, 9 * mm)),
            ((0, 0), (10 * mm, 0), (0, -11 * mm)),
        ):
            chain, _ = arc_chain(centre, start, end)
            self.assertLess(len(chain), 60, (centre, start, end))
        self.assertGreater(len(arc_chain((0, 0), (10 * mm, 0), (0, 10 * mm))[0]), 90)

    def test_what_is_meant(self):
        """The arcs that have a place are those that the checks take; all others are refused, but with a pen of no width."""
        random.seed(65)
        told = {True: 0, False: 0}
        for tried in range(20000):
            centre, start, end = ((random.randint(-9, 9), random.randint(-9, 9)) for _ in range(3))
            told[is_meant(centre, start, end)] += 1
            self.assertEqual(script.is_meant(centre, start, end), is_meant(centre, start, end), (centre, start, end))
            if not is_meant(centre, start, end):
                draw_bounds(centre, start, end, Q(0))
                self.assertRaises(Refused, draw_bounds, centre, start, end, Q(1, 2))
        self.assertGreater(min(told.values()), 1000)

    def test_pens_of_odd_widths(self):
        random.seed(64)
        for centre, start, end in arcs(100):
            _, (below, above) = draw_bounds(centre, start, end, Q(3_000_001, 2))
            with self.subTest(centre=centre, start=start, end=end):
                self.assertTrue(not below or is_below(centre, start, end, 3_000_001, *chain_of(below)))
                self.assertTrue(is_above(centre, start, end, 3_000_001, *chain_of(above)))

    def test_one_u_more_is_refused(self):
        """Where both ends are at one whole distance the allowance is the least that the checks take."""
        a, b, c = (0, 0), (300000, 400000), (-400000, 300000)
        for start, end in ((b, c), (c, b), (b, b), (b, (-300000, -400000))):
            chain, most = arc_chain(a, start, end)
            with self.subTest(start=start, end=end):
                self.assertTrue(is_below(a, start, end, 20001, chain, 10000 - most))
                self.assertFalse(is_below(a, start, end, 20001, chain, 10001 - most))
                self.assertTrue(is_above(a, start, end, 20001, chain, 10001 + most))
                self.assertFalse(is_above(a, start, end, 20001, chain, 10000 + most))

    def test_the_circle_with_a_moved_centre(self):
        """It goes through both ends, and its centre is the nearest to the given one. Where the arc is meant, it turns one way and keeps
        within the squares that the checks go by: tried at each of its places that a fine chain has, in floats."""
        random.seed(63)
        for tried in range(2000):
            start, end = ((random.randint(-99, 99), random.randint(-99, 99)) for _ in range(2))
            swing, apart = cross((0, 0), start, end), dot(start, end, end)
            if not swing or not is_meant((0, 0), start, end):
                continue
            low, high = sorted((dot((0, 0), start, start), dot((0, 0), end, end)))
            more = spread((0, 0), start, end)
            shift = (dot((0, 0), end, end) - dot((0, 0), start, start)) / (2 * apart)
            x, y = (shift * (end[j] - start[j]) for j in (0, 1))
            radius = hypot(start[0] - x, start[1] - y)
            first, last = (atan2(p[1] - y, p[0] - x) for p in (start, end))
            places = [
                (x + radius * cos(t), y + radius * sin(t))
                for t in (first + (last - first) % (2 * pi) * k / 200 for k in range(201))
            ]
            with self.subTest(start=start, end=end):
                self.assertTrue(all(low - more - 1e-6 <= px * px + py * py <= high + more + 1e-6 for px, py in places))
                self.assertTrue(all(a[0] * b[1] - a[1] * b[0] > 0 for a, b in zip(places, places[1:])))

    def test_other_turns_are_refused(self):
        centre, start, end = (0, 0), (500000, 0), (0, 500000)
        chain, most = arc_chain(centre, start, end)
        low, high = 10000 - most, 10000 + most
        self.assertFalse(is_below(centre, end, start, 20000, chain, low))
        self.assertFalse(is_above(centre, end, start, 20000, chain, high))
        self.assertFalse(is_above(centre, start, end, 20000, chain[:1] + chain[2:], high))
        self.assertFalse(is_above(centre, start, end, 20000, chain[::-1], high))
        self.assertFalse(is_above(centre, start, end, 20000, chain[:-1], high))


if __name__ == "__main__":
    unittest.main()
