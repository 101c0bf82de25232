"""The bounds of contours with arcs in tools/boardnet_show/bounds/primitives/rounded_contours.py, by the checks in crates/arc_covers and crates/arc_regions, written anew
from their definitions."""
import math
import random
import unittest

from boardnet_show.bounds.primitives.rounded_contours import rounded_contour
from boardnet_show.geometry.arcs import is_loop
from boardnet_show.geometry.segments import cross, dot, edges, odd_inside, segments_within
from tests.geometry.test_arcs import is_above as is_chain_above


def stretches(contour, pieces):
    """(start, part, chain, radius) of each part, as the pieces tell: the polygon, and behind it for each arc the draws along its chain,
    which runs counterclockwise."""
    (corners, *draws), at, start, told = pieces, 0, contour[0], []
    walk = corners + corners[:1]
    for part in contour[1:]:
        end, chain, radius = part if len(part) == 2 else part[1], walk[at : at + 2], 0
        at += 1
        if len(part) == 3:
            while chain[-1] != end:
                at += 1
                chain.append(walk[at])
            links, draws = draws[: len(chain) - 1], draws[len(chain) - 1 :]
            chain = chain if part[2] else chain[::-1]
            (radius,) = {draw.radius for draw in links}
            assert [draw[:2] for draw in links] == list(zip(chain, chain[1:]))
        assert walk[at] == end
        told.append((start, part, chain, radius))
        start = end
    assert at == len(corners) and not draws
    return told


def odd_round(centre, chain):
    turn = lambda p: cross(centre, chain[0], p)
    return sum(turn(a) < 0 <= turn(b) for a, b in zip(chain, chain[1:])) % 2 == 1


def stands_for(start, part, chain, radius):
    """The chain may stand for the arc."""
    centre, end, anticlockwise = part
    first, last = (start, end) if anticlockwise else (end, start)
    return (
        not is_loop(centre, first, last)
        and is_chain_above(centre, first, last, 0, chain, radius)
        and odd_round(centre, chain) == (first == last)
    )


def is_above(told):
    return all(len(part) == 2 or stands_for(start, part, chain, radius) for start, part, chain, radius in told)


def turned(centre, spot):
    return centre[0] - (spot[1] - centre[1]), centre[1] + (spot[0] - centre[0])


def eighths(centre, spot):
    """The spot after one eighth turn to seven."""
    (x, y), (u, v) = centre, (spot[0] - centre[0], spot[1] - centre[1])
    eighth = x + (70 * (u - v) + 49) // 99, y + (70 * (u + v) + 49) // 99
    spots = [spot, eighth]
    while len(spots) < 8:
        spots.append(turned(centre, spots[-2]))
    return spots[1:]


def is_passed(centre, last, before, spot):
    """The turn passes an eighth."""
    return cross(centre, before, last) <= 0 or 64 * cross(centre, spot, last) > dot(centre, last, last)


def by_eighths(told):
    """The parts with chains of eighth turns."""
    for start, part, chain, _ in told:
        if len(part) == 2:
            yield start, part, chain, 0
        else:
            centre, end, anticlockwise = part
            first, last = (start, end) if anticlockwise else (end, start)
            turns = [first]
            for spot in eighths(centre, first):
                if not is_passed(centre, last, turns[-1], spot):
                    break
                turns.append(spot)
            yield start, part, [*turns, last], (abs(start[0] - centre[0]) + abs(start[1] - centre[1])) // 12 + 8


def is_below(told, points):
    """No place of the area is on a straight part or in a draw along a chain of eighth turns, and the outline has its first corner inside."""
    odd, told = False, [*by_eighths(told)]
    for _, _, chain, radius in told:
        for a, b in zip(chain, chain[1:]):
            if any(
                are_near(p, q, a, b, radius) and segments_within(p, q, a, b, radius) for p, q in edges(points)
            ) or odd_inside(points, a):
                return False
            odd ^= crosses(points[0], a, b)
    return is_above(told) and odd


def are_near(p, q, a, b, r):
    return all(max(p[k], q[k]) + r >= min(a[k], b[k]) and min(p[k], q[k]) - r <= max(a[k], b[k]) for k in (0, 1))


def crosses(p, a, b):
    """Whether a ray to the right crosses an edge."""
    return (a[1] > p[1]) != (b[1] > p[1]) and (cross(a, b, p) > 0) == (b[1] > a[1])


def ring(rng):
    """A box whose corners are rounded outwards or inwards, or not, with long, short or no edges between, either way round."""
    r = rng.choice((rng.randrange(1, 9), rng.randrange(9, 900), rng.randrange(900, 10**6)))
    (w, h), start = (r + rng.choice((0, 1, 2, rng.randrange(1, 4 * r), rng.randrange(1, 10**7))) for _ in "xy"), (
        r,
        0,
    )
    out = [start]
    for inner, outer, first, last in (
        ((w, r), (w + r, 0), (w, 0), (w + r, r)),
        ((w, h), (w + r, h + r), (w + r, h), (w, h + r)),
        ((r, h), (0, h + r), (r, h + r), (0, h)),
        ((r, r), (0, 0), (0, r), start),
    ):
        out += [first, rng.choice(((inner, last, True), (inner, last, True), (outer, last, False), last))]
    return out if rng.random() < 0.5 else backwards(out)


def backwards(contour):
    spots = [part if len(part) == 2 else part[1] for part in contour]
    return [
        spots[-1],
        *(
            spots[k] if len(part) == 2 else (part[0], spots[k], not part[2])
            for k, part in reversed([*enumerate(contour[1:])])
        ),
    ]


def turned_by(rng, contour):
    """The contour at an angle, its places rounded, so that most arcs have ends at two distances."""
    angle, step = rng.random() * 7, rng.choice((1, 10, 100))
    place = lambda p: tuple(
        step * round((p[0] * math.cos(angle + k) + p[1] * math.sin(angle + k)) / step) for k in (0, math.pi / 2)
    )
    return [place(part) if len(part) == 2 else (place(part[0]), place(part[1]), part[2]) for part in contour]


def walk(rng):
    """Straight parts and arcs from a spot on, of any turn that keeps the distance; most cross themselves."""
    size, out = 10 ** rng.randrange(1, 8), [(0, 0)]
    for _ in range(rng.randrange(2, 6)):
        (x, y), (dx, dy) = out[-1][-2:] if len(out[-1]) == 2 else out[-1][1], (
            rng.randrange(1, size),
            rng.randrange(-size, size),
        )
        turned = rng.choice(((-dx, -dy), (-dy, dx), (dy, -dx), (dx, -dy), (-dx, dy), (dy, dx), (-dy, -dx), (dx, dy)))
        centre = (x - dx, y - dy)
        out.append(
            rng.choice(((centre, (centre[0] + turned[0], centre[1] + turned[1]), rng.random() < 0.5), (x + dx, y + dy)))
        )
    return [*out, out[0]]


class TestInsets(unittest.TestCase):
    def tried(self, contour, is_even=True):
        made = rounded_contour(tuple(contour), False, True)
        if made.is_read:
            told = stretches(contour, [made.outer, *made.wide])
            with self.subTest(contour=contour):
                self.assertTrue(is_above(told))
                self.assertTrue(is_above(by_eighths(told)) or not is_even)
                self.assertTrue(all(is_below(told, points) for points in made.inner))
        return made

    def test_boxes_are_taken(self):
        """What is made for a box with arcs, where it is wide enough."""
        rng = random.Random(64)
        for _ in range(200):
            contour = ring(rng)
            made = self.tried(contour)
            self.assertTrue(len(made.inner) == 1 or not made.wide or contour[0][0] < 30, contour)

    def test_two_distances_are_taken(self):
        """Boxes at angles, most of whose arcs have such ends: all whose corners have a radius of over 2 micrometres."""
        rng = random.Random(66)
        for _ in range(200):
            contour = turned_by(rng, ring(rng))
            made, sizes = self.tried(contour, False), [math.dist(*part[:2]) for part in contour if len(part) == 3]
            self.assertTrue(made.is_read and len(made.inner) == 1 or min(sizes, default=0) < 20000, contour)

    def test_walks_are_taken(self):
        rng = random.Random(65)
        found = sum(len(its.inner) for its in (self.tried(walk(rng)) for _ in range(300)) if its.is_read)
        self.assertGreater(found, 30)

    def test_straight_edges_are_kept(self):
        """But near arcs they are moved by 2 u alone, also behind one that turns inwards."""
        made = self.tried(
            [
                (0, 0),
                (30000, 0),
                (30000, 10000),
                (15000, 10000),
                ((15000, 15000), (10000, 15000), False),
                (10000, 30000),
                (0, 30000),
                (0, 0),
            ]
        )
        self.assertLessEqual({(2, 2), (29998, 2), (29998, 9998), (9998, 29998), (2, 29998)}, {*made.inner[0]})

    def test_what_is_not_taken(self):
        """The checks refuse an arc that may be a whole turn or none, draws that are a u less wide, and an area that touches the outline."""
        contour = [(0, 0), (4000, 0), ((0, 0), (0, 4000), True), (0, 0)]
        made = rounded_contour(tuple(contour), False, True)
        told = stretches(contour, [made.outer, *made.wide])
        self.assertTrue(is_below(told, made.inner[0]))
        self.assertFalse(
            is_above([(start, part, chain, radius - (len(part) == 3)) for start, part, chain, radius in told])
        )
        self.assertFalse(is_below(told, [(0, 0), (100, 0), (0, 100)]))
        self.assertFalse(is_below(told, [(10, 10), (-100, 10), (-10, -100)]))
        self.assertFalse(is_below(told, [(-10, -10), (-100, -10), (-10, -100)]))
        self.assertFalse(rounded_contour(((0, 9), (4000, 0), ((0, 0), (4001, 0), True), (0, 9)), False, True).is_read)
        self.assertFalse(rounded_contour(((0, 0), (4000, 0), (0, 0)), False, True).is_read)

    def test_few_edges_are_taken(self):
        """A whole turn, two arcs, and an arc with a straight edge."""
        half = ((9000, 0), (18000, 0), True)
        for rest in ([((9000, 0), (0, 0), True)], [half, ((9000, 0), (0, 0), True)], [half, (0, 0)]):
            self.assertTrue(self.tried([(0, 0), *rest]).is_read)


if __name__ == "__main__":
    unittest.main()
