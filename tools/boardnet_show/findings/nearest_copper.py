"""The nearest two test points of two nets, and where the copper of two nets comes nearest: suggestions where a join is
missing."""
from bisect import bisect_left
from collections import defaultdict, namedtuple

from boardnet_show.geometry import nearest_places
from boardnet_show.geometry.box_tree import Tree, nearest
from boardnet_show.geometry.segments import box_of_line


class Gap(namedtuple("Gap", "distance place layer below", defaults=(0,))):
    """How far apart two nets are on a layer, in u and in floating point, and the middle of the gap.

    Where the copper of the one ends right above that of the other, `below` is the other's layer, and a hole is missing.
    """

    __slots__ = ()


class NearestPoints:
    """Nearest points of one name on two nets, by a sweep over x."""

    def __init__(self, board):
        self.spot = board.spot
        self.members, self.rows = defaultdict(list), {}
        for point, (_, _, name, net) in enumerate(board.report.points):
            self.members[name, net].append(point)

    def rising(self, key):
        if key not in self.rows:
            self.rows[key] = sorted((self.spot(point)[0], point) for point in self.members[key])
        return self.rows[key]

    def pair(self, name, home, other):
        """The distance, squared, and the points on the two nets."""
        rising, best = self.rising((name, home)), None
        for point in self.members[name, other]:
            x, y = self.spot(point)
            middle = bisect_left(rising, (x, -1))
            for side in (range(middle, len(rising)), range(middle - 1, -1, -1)):
                for k in side:
                    to_x, to = rising[k]
                    if best and (to_x - x) ** 2 > best[0]:
                        break
                    squared = (to_x - x) ** 2 + (self.spot(to)[1] - y) ** 2
                    if best is None or (squared, to, point) < best:
                        best = (squared, to, point)
        return best


class Stacked:
    """Places where the copper of two nets ends at one place on two layers, as where a hole was lost."""

    def __init__(self, board):
        self.board, self.rows = board, {}

    def ends(self, net):
        """Where pieces of a net begin and end, or have their middle in them, doubled, each with the layers there."""
        if net not in self.rows:
            found, touching, shapes = {}, self.board.touching, self.board.shapes
            for piece in self.board.pieces_of[net]:
                top, bottom = self.board.report.sources[piece][3:]
                for x, y in touching.anchors(piece):
                    if not shapes.is_area(piece) or touching.holds(piece, (x // 2, y // 2)):
                        found.setdefault((x, y), set()).update((top, bottom))
            self.rows[net] = found
        return self.rows[net]

    def gap(self, ours, theirs, spot):
        """The place nearest to a spot, or None."""
        first, second = sorted((self.ends(ours), self.ends(theirs)), key=len)
        places = [place for place in first if place in second and not first[place] & second[place]]
        if not places:
            return None
        x, y = min(places, key=lambda place: ((place[0] - 2 * spot[0]) ** 2 + (place[1] - 2 * spot[1]) ** 2, place))
        layers = sorted(first[x, y] | second[x, y])
        return Gap(0, (x // 2, y // 2), layers[0], layers[-1])


class NearestCopper:
    """Nearest copper of two nets, layer by layer, over the lines of their pieces."""

    def __init__(self, board):
        self.board, self.rows = board, {}

    def lines(self, net, layer):
        """The lines of a net on a layer, each with its radius, and the tree of their boxes."""
        if (net, layer) not in self.rows:
            touching, sources, reach = self.board.touching, self.board.report.sources, self.board.shapes.reach
            lines = [
                (line, reach(piece))
                for piece in self.board.pieces_of[net]
                if sources[piece][3] <= layer <= sources[piece][4]
                for line in touching.lines(piece)
            ]
            boxes = [box_of_line(*line, r) for line, r in lines]
            self.rows[net, layer] = lines, Tree(boxes) if lines else None
        return self.rows[net, layer]

    def gap(self, ours, theirs):
        """Where two nets come nearest on one layer, or None where they share no layer."""
        best = None
        for layer in range(1, self.board.manifest.layers + 1):
            (first, first_tree), (second, second_tree) = self.lines(ours, layer), self.lines(theirs, layer)
            if first and second:

                def measure(i, j):
                    return gap_of_lines(first[i], second[j], layer)

                best = nearest(first_tree, second_tree, measure, best)
        return best


def gap_of_lines(first, second, layer):
    (ours, r), (theirs, s) = first, second
    squared, near, far = nearest_places.between(ours, theirs)
    length = squared**0.5
    here, there = nearest_places.towards(near, far, r, length), nearest_places.towards(far, near, s, length)
    return Gap(length - r - s, nearest_places.middle(here, there), layer)
