"""Nets that are too close on a board between two: the gaps that are certain, and those that may be.

The board's copper lies in the upper board's and holds the lower one's. Nets that are too close below and on two nets
above are too close for certain. Nets that are farther apart above are not. What one net above holds may be several on
the board: lower nets, and copper that the lower board leaves out. It is joined or apart, by as little as may be, so
each two such parts that come too close above are told as possible gaps.
"""
from collections import defaultdict

from boardnet_show.base.facts import Apart
from boardnet_show.findings import nearest_copper
from boardnet_show.geometry import box_grid
from boardnet_show.geometry.box_tree import Tree, apart

from .spacing import Lines, Spacing, least, spacings


def key(board, piece):
    """The file, the command and the copy that made a piece."""
    return tuple(board.report.sources[piece][:3])


class Layers:
    """The pieces of a board by layers, asked for those at a place or a box."""

    def __init__(self, board):
        self.board, self.trees, self.by_layer = board, {}, defaultdict(list)
        for piece, (*_, top, bottom) in enumerate(board.report.sources):
            for layer in range(top, bottom + 1):
                self.by_layer[layer].append(piece)

    def meeting(self, box, layer):
        pieces = self.by_layer[layer]
        if layer not in self.trees:
            self.trees[layer] = Tree([self.board.touching.box(piece) for piece in pieces]) if pieces else None
        return [pieces[k] for k in self.trees[layer].meeting(box)] if pieces else []

    def holding(self, place, layer):
        return [piece for piece in self.meeting(place * 2, layer) if self.board.touching.holds(piece, place)]


class Parts:
    """What each net of the upper board is made of: nets of the lower one, by their numbers, and commands that it leaves
    out, by their keys."""

    def __init__(self, low, high):
        self.low, self.high, self.below, self.above = low, high, Layers(low), Layers(high)
        self.by_key, self.members = defaultdict(list), defaultdict(set)
        for piece in range(low.report.pieces):
            self.by_key[key(low, piece)].append(piece)
        for net in range(low.report.nets):
            self.members[self.net_above(net)].add(net)
        for piece in range(high.report.pieces):
            if key(high, piece) not in self.by_key and not self.shared(piece):
                self.members[high.report.net_of[piece]].add(key(high, piece))

    def net_above(self, net):
        """The upper net that holds a lower one."""
        piece = self.low.pieces_of[net][0]
        its = self.above.holding(self.low.shapes.places(piece)[0], self.low.report.sources[piece][3])
        return self.high.report.net_of[its[0]] if its else -1

    def shared(self, piece):
        """The lower pieces that have a place of an upper one, or one of whose places it has."""
        box, layer = self.high.touching.box(piece), self.high.report.sources[piece][3]
        first = self.high.shapes.places(piece)[0]
        return [
            it
            for it in self.below.meeting(box, layer)
            if self.low.touching.holds(it, first)
            or any(
                box[0] <= x <= box[2] and box[1] <= y <= box[3] and self.high.touching.holds(piece, (x, y))
                for x, y in self.low.shapes.places(it)
            )
        ]

    def lower(self, piece, place):
        """The lower piece of an upper one's command that is nearest to a place, None where that is left out."""
        its = self.by_key.get(key(self.high, piece)) or self.shared(piece)
        return min(its, key=lambda mine: apart(self.low.touching.box(mine), place * 2), default=None)

    def of_pieces(self, net):
        """For each piece of an upper net its parts."""
        parts = {piece: set() for piece in self.high.pieces_of[net]}
        for member in self.members[net]:
            for piece in self.low.pieces_of[member] if isinstance(member, int) else ():
                for it in self.above.holding(self.low.shapes.places(piece)[0], self.low.report.sources[piece][3]):
                    parts[it].add(member)
        for piece, its in parts.items():
            if not its:
                its.update([self.low.report.net_of[it] for it in self.shared(piece)] or [key(self.high, piece)])
        return parts


def close(board, parts, layer, u):
    """Each two parts of a net whose pieces on a layer have boxes closer than u, with all those pairs of pieces."""
    pieces = [piece for piece in parts if board.report.sources[piece][3] <= layer <= board.report.sources[piece][4]]
    boxes = [
        (left - u // 2 - 1, low - u // 2 - 1, right + u // 2 + 1, high + u // 2 + 1)
        for left, low, right, high in map(board.touching.box, pieces)
    ]
    found = defaultdict(list)
    for i, j in [(k, k) for k in range(len(pieces))] + box_grid.pairs(boxes):
        for a in parts[pieces[i]]:
            for b in parts[pieces[j]]:
                if a != b:
                    found[frozenset((a, b))].append(
                        (pieces[i], pieces[j]) if str(a) < str(b) else (pieces[j], pieces[i])
                    )
    return {tuple(sorted(pair, key=str)): its for pair, its in found.items()}


def spacing(lines, layer, pair):
    """Two groups of lines as a spacing, None where one has none on the layer."""
    if not all(lines.of(part, layer)[0] for part in pair):
        return None
    distance, a, b = least(lines, layer, *pair)
    return Spacing(layer, pair, max(distance, 0), nearest_copper.gap_of_lines(a[:2], b[:2], layer).place, (a[2], b[2]))


def joined(both, low_lines, u):
    """(spacing, whether it is of the lower board) of each two parts of one upper net that come closer than u on it."""
    for net in [net for net, its in both.members.items() if net >= 0 and len(its) > 1]:
        parts, board = both.of_pieces(net), both.high
        lines = Lines(board, parts)
        for layer in range(1, board.manifest.layers + 1):
            for pair, pieces in close(board, parts, layer, u).items():
                touch = next(((p, q) for p, q in pieces if p == q or board.touching.touch(p, q)), None)
                it = (
                    Spacing(layer, pair, 0, board.touching.touching_place(*touch), touch)
                    if touch
                    else spacing(lines, layer, pair)
                )
                if it.distance < u:
                    below = spacing(low_lines, layer, pair) if all(isinstance(part, int) for part in pair) else None
                    yield below or it, bool(below)


def gaps(program, low, high, u):
    """(sure, spacing, how far apart, sources of both pieces) of each gap. Spacings are of the lower board, with None
    for the net and the piece of what it leaves out."""
    both, low_lines = Parts(low, high), Lines(low)
    upper = {(it.layer, it.nets): it for it in spacings(program, high, u)[0]}
    certain = {}
    for it in spacings(program, low, u)[0]:
        nets = tuple(sorted(map(both.net_above, it.nets)))
        if nets[0] != nets[1] and ((it.layer, nets) not in certain or it.distance < certain[it.layer, nets].distance):
            certain[it.layer, nets] = it

    def below(above):
        sides = sorted(
            ((both.lower(piece, above.place), high.source(piece)) for piece in above.pieces),
            key=lambda side: side[0] is None,
        )
        pieces, sources = zip(*sides)
        nets = tuple(None if piece is None else low.report.net_of[piece] for piece in pieces)
        return above._replace(nets=nets, pieces=pieces), sources

    for at, it in certain.items():
        yield True, it, Apart(upper[at].at_least() if at in upper else None, it.at_most()), ()
    for at, it in upper.items():
        if at not in certain:
            yield (False, *below(it)[:1], Apart(it.at_least()), below(it)[1])
    for it, is_below in joined(both, low_lines, u):
        if is_below:
            yield False, it, Apart(most=it.at_most(), may_be_joined=True), ()
        else:
            yield False, below(it)[0], Apart(may_be_joined=True), below(it)[1]
