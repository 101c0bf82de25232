"""The places of a net where the copper of two names meets, with the pieces that could be either's."""
from collections import Counter, namedtuple

from boardnet_show.geometry import box_grid, nearest_places

from . import least_cuts

# As many places are told of a short.
MOST_MEETS = 20
# Pads and holes of one pin differ in size at most so many times.
SAME_PIN = 8


class Meet(namedtuple("Meet", "names between touch place layer chain near far")):
    """Copper of `names[0]` and of `names[1]` meets at a place, over the pieces `between`, which could be either's.

    `chain` leads from a piece with a point of the one to such a piece of the other; its pieces up to `near` are the
    one's, those from `far` on the other's. `touch` are the pieces of the one and of the other at the place.
    """

    __slots__ = ()


def rank(board, piece, spot):
    """How likely a piece is one that a point was made for: pads and holes centred on it, then ends of strokes, the
    least first."""
    left, low, right, high = board.touching.box(piece)
    places = board.shapes.places(piece) if not board.shapes.is_area(piece) else []
    is_centred = (left + right, low + high) == (2 * spot[0], 2 * spot[1])
    return (0 if is_centred and len(places) != 2 else 1 if spot in places else 2), right - left + high - low, piece


def likely(ranks):
    """The pieces that a point was made for: pads and holes of one centre, but no pour about it; else the one most
    likely."""
    first, least, piece = min(ranks)
    return [piece] if first else [it for found, size, it in sorted(ranks) if found == 0 and size <= SAME_PIN * least]


def carriers(board, net, pieces):
    """For each test point on the net the pieces under it that it was most likely made for."""
    points = [point for point in board.points_of[net] if board.spot(point)]
    boxes = [board.touching.box(piece) for piece in pieces] + [board.spot(point) * 2 for point in points]
    ranks = {}
    for i, j in box_grid.pairs(boxes):
        if i < len(pieces) or j >= len(pieces):
            continue
        piece, point = pieces[j], points[i - len(pieces)]
        top, bottom = board.report.sources[piece][3:]
        if top <= board.layer(point) <= bottom and board.touching.holds(piece, board.spot(point)):
            ranks.setdefault(point, []).append(rank(board, piece, board.spot(point)))
    return {point: likely(found) for point, found in ranks.items()}


def is_between(place, one, other):
    """Whether a place is no farther from either of two others than they are from each other."""
    squared = [(a[0] - b[0]) ** 2 + (a[1] - b[1]) ** 2 for a, b in ((one, other), (place, one), (place, other))]
    return max(squared[1:]) <= squared[0]


def graph_of(board, pieces):
    graph, ends = least_cuts.Graph(pieces), {piece: board.touching.anchors(piece) for piece in pieces}
    for p, q in board.touching.pairs(pieces):
        graph.join(p, q, least_cuts.MEANT if ends[p] & ends[q] else 1)
    return graph


class Net:
    """A net that joins several names: its touches, which names are known of its pieces, and by what (labels or
    points)."""

    def __init__(self, board, net):
        self.board, self.pieces = board, board.pieces_of[net]
        self.graph = graph_of(board, self.pieces)
        self.carriers = carriers(board, net, self.pieces)
        labels = self.tied({piece: board.labels[piece] for piece in self.pieces if piece in board.labels})
        self.labels = sorted(set(labels.values()))
        self.is_labelled = len(self.labels) > 1
        self.seeds, self.shared = (labels, {}) if self.is_labelled else self.by_points()
        self.sides, self.of_name, self.with_points, self.count = {}, {}, {}, 0

    def tied(self, labels):
        """Labels of pieces, tied ones as one. Ties name the netlist's names: a label is the name that most points on
        its pieces have."""
        names = {}
        for point, pieces in self.carriers.items() if self.board.ties.ties else ():
            for piece in pieces:
                if piece in labels:
                    names.setdefault(labels[piece], Counter())[self.board.name(self.board.name_of(point))] += 1
        likely = {label: min(found, key=lambda name: (-found[name], name)) for label, found in names.items()}
        return {
            piece: self.board.ties.side(likely.get(label, label))
            if self.board.ties.is_tied_name(likely.get(label, label))
            else label
            for piece, label in labels.items()
        }

    def by_points(self):
        """The names of pieces by the points on them, and the pieces that carry points of several names."""
        names = {}
        for point, pieces in self.carriers.items():
            for piece in pieces:
                names.setdefault(piece, set()).add(self.board.side_of(self.board.name_of(point)))
        seeds = {piece: next(iter(found)) for piece, found in names.items() if len(found) == 1}
        return seeds, {piece: sorted(found) for piece, found in names.items() if len(found) > 1}

    def meets(self, budget):
        """The places where names meet, the first few; `count` is how many there are."""
        self.sides = least_cuts.sides(self.graph, self.seeds, budget)
        for piece, name in self.sides.items():
            self.of_name.setdefault(name, set()).add(piece)
        for piece in (each for found in self.carriers.values() for each in found):
            self.with_points.setdefault(self.sides.get(piece), set()).add(piece)
        rest = [piece for piece in self.pieces if piece not in self.sides]
        found = [place for part in least_cuts.components(self.graph, rest) for place in self.over(part)]
        found += self.direct()
        self.count = len(found)
        return [self.meet(*place) for place in found[:MOST_MEETS]]

    def exits(self, part):
        """By name, the pieces of the name that touch a part, each with the piece of the part that it touches."""
        found = {}
        for piece in part:
            for name in self.shared.get(piece, ()):
                found.setdefault(name, []).append((piece, piece))
            for other in sorted(self.graph.near[piece]):
                if other in self.sides:
                    found.setdefault(self.sides[other], []).append((other, piece))
        return found

    def over(self, part):
        """Where names meet over pieces that could be either's: for each name but the first, the nearest of those before
        it."""
        exits, inside, found, earlier = self.exits(part), set(part), [], {}
        for name in sorted(exits):
            if earlier:
                chain = least_cuts.way(self.graph, [piece for _, piece in exits[name]], earlier, inside)
                second = next(pair for pair in exits[name] if pair[1] == chain[0])
                other, first = earlier.get(chain[-1]) or next(iter(earlier.values()))
                found.append(((other, name), first, second, part))
            for pair in exits[name]:
                earlier.setdefault(pair[1], (name, pair))
        return found

    def pins_on(self, piece):
        """The points that a piece was most likely made for, by their components."""
        found = {}
        for point, pieces in self.carriers.items():
            record = self.board.record(point) if piece in pieces else None
            if record and record.component and record.component != "VIA":
                found.setdefault(record.component, []).append(point)
        return found

    def footprint(self, meet):
        """(component, point, point) where both names of a place come to it from pins of one component, between which it
        lies, or None."""
        ours, theirs = self.pins_on(meet.chain[0]), self.pins_on(meet.chain[-1])
        for component in sorted(ours.keys() & theirs.keys()):
            for one in ours[component]:
                for other in theirs[component]:
                    sides = {self.board.side_of(self.board.name_of(point)) for point in (one, other)}
                    if len(sides) > 1 and is_between(meet.place, self.board.spot(one), self.board.spot(other)):
                        return component, one, other
        return None

    def touches(self):
        """The touches of pieces of two names, by the names."""
        found = {}
        for piece in self.pieces:
            for other in sorted(self.graph.near[piece]):
                names = self.sides.get(piece), self.sides.get(other)
                if piece < other and None not in names and names[0] != names[1]:
                    found.setdefault(tuple(sorted(names)), []).append(
                        (piece, other) if names[0] < names[1] else (other, piece)
                    )
        return found

    def direct(self):
        """Where a piece of one name touches one of another, once for each bundle of touches."""
        found = []
        for names, pairs in self.touches().items():
            bundles = least_cuts.components(self.graph, sorted({piece for pair in pairs for piece in pair}))
            bundle_of = {piece: at for at, bundle in enumerate(bundles) for piece in bundle}
            first = {}
            for pair in pairs:
                first.setdefault(bundle_of[pair[0]], pair)
            found += [(names, pair, pair[::-1], []) for pair in first.values()]
        return found

    def meet(self, names, first, second, part):
        """A place: `first` and `second` are each a piece of the name and the piece that it touches towards the
        other."""
        (p, into), (q, out) = first, second
        head = least_cuts.way(self.graph, [p], self.with_points.get(names[0], ()), self.of_name.get(names[0], ()))[::-1]
        tail = least_cuts.way(self.graph, [q], self.with_points.get(names[1], ()), self.of_name.get(names[1], ()))
        inner = least_cuts.way(self.graph, [into], {out}, set(part)) if part else []
        inner = [piece for piece in inner if piece not in (head[-1], tail[0])]
        place, layer = self.meeting_place(p, q, inner or ([into] if part else []), names)
        return Meet(
            names,
            sorted(part),
            (p, q),
            place,
            layer,
            list(dict.fromkeys([*head, *inner, *tail])),
            len(head) - 1,
            len(head) + len(inner),
        )

    def meeting_place(self, p, q, inner, names):
        """Where to look: the middle of where the one piece between them touches both, or where two pieces touch; of one
        piece alone between points of both names on it."""
        touching, shapes = self.board.touching, self.board.shapes
        if len(inner) == 1 and inner[0] not in (p, q) and not shapes.is_area(inner[0]):
            ends = touching.touching_place(p, inner[0]), touching.touching_place(inner[0], q)
            return touching.held(nearest_places.middle(*ends), inner[0]), self.board.report.sources[inner[0]][3]
        one, other = (p, q) if not inner else (p, inner[0]) if p != inner[0] else (inner[-1], q)
        if one == other:
            return self.place_on(one, names), self.board.report.sources[one][3]
        return touching.touching_place(one, other), self.board.common_layer(one, other)

    def place_on(self, piece, names):
        """A place in a piece: its middle, the middle of the first point of each name on it, or one of these points."""
        touching, spots = self.board.touching, {}
        for point, pieces in self.carriers.items():
            if piece in pieces:
                spots.setdefault(self.board.side_of(self.board.name_of(point)), self.board.spot(point))
        left, low, right, high = touching.box(piece)
        found = [spots[name] for name in names if name in spots]
        tried = [
            ((left + right) // 2, (low + high) // 2),
            *([nearest_places.middle(*found)] if len(found) > 1 else []),
            *found,
        ]
        return next((spot for spot in tried if touching.holds(piece, spot)), None) or touching.middle(piece)
