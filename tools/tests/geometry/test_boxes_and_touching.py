"""Boxes, touching and cuts: each against a plain search over small random cases."""
import itertools
import json
import random
import unittest

from boardnet_show.base.wording import at_most, counted, millimetres, spoken
from boardnet_show.findings import least_cuts
from boardnet_show.geometry import box_grid, box_tree, nearest_places, segments
from boardnet_show.geometry.shapes import Shapes
from boardnet_show.geometry.touching import Touching
from tests.fixtures import made, stand_in
from tests.fixtures.made import flash, manifest, netlist, record


def boxes(rng, count):
    sizes = [5, 5, 5, 40, 0, 300]
    return [
        (x, y, x + rng.choice(sizes), y + rng.choice(sizes))
        for x, y in ((rng.randrange(-200, 200), rng.randrange(200)) for _ in range(count))
    ]


def solid(rng):
    """A random capsule or area: radius and places."""
    x, y = rng.randrange(12), rng.randrange(12)

    def near():
        return x + rng.randrange(-5, 6), y + rng.randrange(-5, 6)

    if rng.random() < 0.5:
        return rng.randrange(4), [(x, y)] if rng.random() < 0.3 else [(x, y), near()]
    return -1, [near() for _ in range(rng.choice([3, 4, 6, 40]))]


class Boxes(unittest.TestCase):
    def test_pairs(self):
        rng = random.Random(1)
        for count in (0, 1, 20, 60, 150):
            some = boxes(rng, count)
            found = box_grid.pairs(some)
            wanted = {(i, j) for i in range(count) for j in range(i) if box_grid.meet(some[i], some[j])}
            self.assertEqual((set(found), len(found)), (wanted, len(wanted)))

    def test_tree(self):
        rng = random.Random(2)
        for count in (1, 16, 17, 400):
            some = boxes(rng, count)
            grown, one = box_tree.Tree(some), boxes(rng, 1)[0]
            self.assertEqual(sorted(grown.meeting(one)), [k for k in range(count) if box_grid.meet(some[k], one)])
            others = boxes(rng, 90)

            def measure(i, j):
                return box_tree.apart(some[i], others[j]) ** 0.5, i, j

            least = min(measure(i, j)[0] for i in range(count) for j in range(90))
            self.assertEqual(box_tree.nearest(grown, box_tree.Tree(others), measure)[0], least)


class Solids(unittest.TestCase):
    def test_touching(self):
        rng, met, both, shared = random.Random(3), 0, 0, 0
        for _ in range(400):
            solids, shapes = [solid(rng), solid(rng)], Shapes()
            spans = [(1, rng.choice([1, 2])), (rng.choice([1, 2]), 2)]
            for each in solids:
                shapes.add(*each)
            p, q = ((*each, 0, None, 0, *span, 0) for each, span in zip(solids, spans))
            touching = Touching(shapes, spans)
            wanted = stand_in.touch(p, q)
            self.assertEqual(touching.touch(0, 1), wanted, (solids, spans))
            place = (rng.randrange(12), rng.randrange(12))
            self.assertEqual(
                touching.holds(0, place), stand_in.touch(p, (0, [place], 0, None, 0, 1, 1, 0)), (solids[0], place)
            )
            if wanted:
                met += 1
                box = box_grid.meet(touching.box(0), touching.box(1))
                place = touching.touching_place(0, 1)
                held = [stand_in.touch(it, (0, [place], 0, None, 0, *it[5:7], 0)) for it in (p, q)]
                common = any(
                    all(touching.holds(it, spot) for it in (0, 1))
                    for spot in itertools.product(range(-3, 17), repeat=2)
                )
                self.assertTrue(box and any(held), (solids, place))
                both, shared = both + all(held), shared + common
            for piece, it in enumerate((p, q)):
                self.assertTrue(stand_in.touch(it, (0, [touching.middle(piece)], 0, None, 0, *it[5:7], 0)), solids)
        self.assertGreater(met, 100)
        self.assertGreater(both * 100, shared * 95)

    def test_many_lines(self):
        """Where two areas have more lines than are all compared, the place is still in them."""
        comb = lambda by, turn: [turn(x + by, y) for k in range(400) for x, y in ((10 * k, 5000), (10 * k + 1, 0))] + [
            turn(x, -4000) for x in (5000, 0)
        ]
        shapes = Shapes()
        shapes.add(-1, comb(0, lambda x, y: (x, y)))
        shapes.add(-1, comb(3, lambda x, y: (y - 900, x + 700)))
        touching = Touching(shapes, [(1, 1)] * 2)
        place = touching.touching_place(0, 1)
        self.assertTrue(touching.touch(0, 1) and all(touching.holds(piece, place) for piece in (0, 1)), place)

    def test_many_corners(self):
        """Areas with more edges than are all looked at: what lies in them, and which touch, as of all their edges."""
        rng, inside, met = random.Random(7), 0, 0
        for _ in range(60):
            shapes, wide = Shapes(), rng.choice([8, 60])
            for far in (1, 2):
                x, y = rng.randrange(wide * far), rng.randrange(wide * far)
                shapes.add(
                    -1, [(x + rng.randrange(wide), y + rng.randrange(wide)) for _ in range(rng.choice([25, 70, 90]))]
                )
            touching, odd = Touching(shapes, [(1, 1)] * 2), segments.odd_inside
            for place in [(rng.randrange(-2, 2 * wide), rng.randrange(-2, 2 * wide)) for _ in range(40)]:
                found = touching.is_inside(0, place)
                self.assertEqual(found, odd(shapes.places(0), place), place)
                inside += found
            lines = touching.lines(0), touching.lines(1)
            wanted = any(segments.segments_within(*a, *b, 0) for a, b in itertools.product(*lines))
            box = (0, 0, 5 * wide, 5 * wide)
            self.assertEqual([touching.lines_touch(*pair, box, 0) for pair in ((0, 1), (1, 0))], [wanted] * 2)
            met += wanted
        self.assertTrue(inside > 100 and 0 < met < 60, (inside, met))

    def test_middles(self):
        """Of a ring, a bent and a crossed area, and where the middle is no whole place."""
        shapes = Shapes()
        ring = [(0, 0), (90, 0), (90, 90), (0, 90), (0, 1), (1, 1), (1, 89), (89, 89), (89, 1), (0, 1)]
        for places in (
            ring,
            [(0, 0), (9, 0), (9, 1), (1, 1), (1, 9), (0, 9)],
            [(0, 0), (9, 9), (9, 0), (0, 9)],
            [(0, 0), (9, 0), (9, 9), (0, 9)],
        ):
            shapes.add(-1, places)
        touching = Touching(shapes, [(1, 1)] * 4)
        middles = [touching.middle(piece) for piece in range(4)]
        self.assertTrue(all(touching.holds(piece, middle) for piece, middle in enumerate(middles)), middles)
        self.assertEqual(middles[3], (4, 4))

    def test_places_of_contact(self):
        shapes = Shapes()
        for each in [
            (10, [(0, 0)]),
            (10, [(20, 0)]),
            (5, [(-50, 15), (50, 15)]),
            (-1, [(-9, -100), (9, -100), (0, -10)]),
        ]:
            shapes.add(*each)
        touching = Touching(shapes, [(1, 1)] * 4)
        self.assertEqual([touching.touching_place(0, other) for other in (1, 2, 3)], [(10, 0), (0, 10), (0, -10)])

    def test_lines(self):
        self.assertEqual(nearest_places.between(((0, 0), (10, 0)), ((5, -5), (5, 5)))[0], 0)
        self.assertEqual(nearest_places.between(((0, 0), (10, 0)), ((13, 4), (20, 4))), (25, (10, 0), (13, 4)))


class Meets(made.Case):
    """Where names meet lies in copper of the net that joins them, by an exact test; no other pad is there."""

    def meets(self, lines, records):
        """The places where `show` says that names meet, in u."""
        self.board({"m.json": manifest(), "top.gbr": lines, "n.ipc": netlist(*records)})
        self.assertEqual(self.show("board", "--json", "out.json")[0], 1)
        found = json.loads(self.read("out.json"))["boards"][0]["findings"]
        return [
            (round(it["x"] * 10**7), round(it["y"] * 10**7))
            for each in found
            if each["kind"] == "short"
            for it in each["meets"]
        ]

    def test_one_contour(self):
        """Two names on one contour round a pad of another."""
        horseshoe = [(0, 0), (20, 0), (20, 20), (19, 20), (19, 1), (1, 1), (1, 20), (0, 20)]
        for turn in (lambda x, y: (x, y), lambda x, y: (y, x), lambda x, y: (20 - x, 20 - y)):
            its = [
                record(name, pin, *turn(x, y))
                for name, pin, x, y in (("A", "J1.1", 0.5, 19), ("B", "J2.1", 19.5, 19), ("N", "J3.1", 10, 10))
            ]
            (place,) = self.meets([*made.region(*(turn(*p) for p in horseshoe)), *flash(10, (10, 10))], its)
            area = (-1, [tuple(round(v * 10**7) for v in turn(*p)) for p in horseshoe], 0, None, 0, 1, 1, 0)
            self.assertTrue(stand_in.touch(area, (0, [place], 0, None, 0, 1, 1, 0)), place)

    def test_random_boards(self):
        rng, told = random.Random(8), 0
        for _ in range(12):
            spot = lambda: (rng.randint(0, 20), rng.randint(0, 20))
            areas, lines = [[spot() for _ in range(rng.randint(3, 9))] for _ in range(3)], [
                [spot(), spot()] for _ in range(3)
            ]
            pieces = [(-1, [(x * 10**7, y * 10**7) for x, y in its], 0, None, 0, 1, 1, 0) for its in areas]
            pieces += [(10**6, [(x * 10**7, y * 10**7) for x, y in its], 0, None, 0, 1, 1, 0) for its in lines]
            records = [record(name, f"J{k}.1", *its[0]) for k, (name, its) in enumerate(zip("ABCDEF", areas + lines))]
            for place in self.meets(
                [line for its in areas for line in made.region(*its)]
                + [line for its in lines for line in made.draw(11, *its)]
                + made.region((0, 0), (20, 0), (20, 1), (1, 1), (1, 20), (0, 20)),
                records,
            ):
                told += 1
                ell = (
                    -1,
                    [(x * 10**7, y * 10**7) for x, y in ((0, 0), (20, 0), (20, 1), (1, 1), (1, 20), (0, 20))],
                    0,
                    None,
                    0,
                    1,
                    1,
                    0,
                )
                self.assertTrue(
                    any(stand_in.touch(it, (0, [place], 0, None, 0, 1, 1, 0)) for it in [*pieces, ell]),
                    (place, areas, lines),
                )
        self.assertGreater(told, 12)


class Cuts(unittest.TestCase):
    def graph(self, edges):
        graph = least_cuts.Graph({piece for p, q, _ in edges for piece in (p, q)})
        for p, q, counts in edges:
            graph.join(p, q, counts)
        return graph

    def test_sides_are_least_cuts(self):
        rng = random.Random(4)
        for _ in range(150):
            edges = [(p, q, rng.choice([1, 1, 4])) for p in range(7) for q in range(p) if rng.random() < 0.5]
            edges += [(p, p - 1, 1) for p in range(1, 7) if not any(set(e[:2]) == {p, p - 1} for e in edges)]
            graph, seeds = self.graph(edges), {0: "A", 6: "B"}
            sides = least_cuts.sides(graph, seeds, least_cuts.Budget())

            def cost(side):
                return sum(counts for p, q, counts in edges if (p in side) != (q in side))

            all_sides = [{0, *some} for count in range(6) for some in itertools.combinations(range(1, 6), count)]
            least = min(map(cost, all_sides))
            smallest = set.intersection(*(side for side in all_sides if cost(side) == least))
            self.assertEqual({p for p, name in sides.items() if name == "A"}, smallest)
            self.assertEqual(cost({p for p in range(7) if sides.get(p) != "B"}), least)

    def test_three_names(self):
        # A and B each hang on the bridge 1 between 0 and 2, C on 3 directly at 2.
        graph = self.graph([(0, 1, 1), (1, 2, 1), (2, 3, 1)])
        self.assertEqual(
            least_cuts.sides(graph, {0: "A", 2: "B", 3: "C"}, least_cuts.Budget()), {0: "A", 2: "B", 3: "C"}
        )
        self.assertEqual(least_cuts.components(graph, [1]), [[1]])
        self.assertEqual(least_cuts.way(graph, [0], {3}, {1, 2, 3}), [0, 1, 2, 3])
        self.assertEqual(least_cuts.way(graph, [0], {3}, {1}), [0])

    def test_too_much(self):
        graph = self.graph([(0, 1, 1), (1, 2, 1)])
        self.assertEqual(least_cuts.sides(graph, {0: "A", 2: "B"}, least_cuts.Budget(0)), {})
        wide = self.graph([(0, k, 4) for k in range(1, 40)] + [(k, 99, 4) for k in range(1, 40)])
        self.assertEqual(least_cuts.sides(wide, {0: "A", 99: "B"}, least_cuts.Budget()), {})


class Words(unittest.TestCase):
    def test_lengths(self):
        self.assertEqual(
            [millimetres(u) for u in (0, -5_000_000, 1, 123_456_789)], ["0.000", "-0.500", "0.0000001", "12.3456789"]
        )
        self.assertEqual([at_most(u) for u in (0.0, 1e4, 10000.001, 3e6)], ["0.000", "0.001", "0.002", "0.300"])

    def test_lists(self):
        self.assertEqual([spoken("a"), spoken("ab"), spoken("abcd", 2)], ["a", "a and b", "a, b and 2 more"])
        self.assertEqual([counted(1, "hole"), counted(2, "hole")], ["1 hole", "2 holes"])
