"""A board between two bounds, shown over the lower one: its findings with suggestions, and where the upper board is
wider."""
from collections import Counter, defaultdict

from boardnet_show.bounds.polarity.sweep import Sweep
from boardnet_show.formats import ipc356
from boardnet_show.geometry.capsule_polygons import polygon
from boardnet_show.geometry.exact import Refused
from boardnet_show.geometry.pieces import Area, Capsule
from boardnet_show.geometry.segments import edges
from boardnet_show.judging.two_bounds import own_commands

from .board import Board
from .finding import MISSING, OPEN, SHORT, Finding
from .findings import Opens, open_clues
from .shorts import findings as shorts_of

MICROMETRE = 10_000
MOST = 400  # pieces of a command that are looked at one by one


def board_of(low, sources, shapes, labels=None, ties=None):
    """One of the two judged boards."""
    records = ipc356.records(low.package.read(low.package.manifest.netlist))
    return Board(low.package, own_commands(low.report, low.package.manifest, sources), records, shapes, labels, ties)


class Findings:
    """What both boards say, as findings of the lower one, each with `sure`."""

    def __init__(self, board):
        self.board, self.opens, self.counts = board, Opens(board), Counter()
        self.shorts = {it.nets[0]: it for it in shorts_of(board)}
        self.points = defaultdict(list)  # by net and name
        for point, (_, _, name, net) in enumerate(board.report.points):
            self.points[net, name].append(point)

    def of(self, answer):
        """The findings of the joint answer."""
        return list(map(self.finding, answer.findings))

    def finding(self, joint):
        """One of them; its places are told by its points."""
        kind, sure, points = joint.kind, joint.is_sure, joint.points
        number, board = self.counts[kind], self.board
        self.counts[kind] += 1
        points = [*points[1::-1], *points[2:]] if kind == OPEN else points  # the part that stands apart first
        nets = list(dict.fromkeys(board.report.points[point][3] for point in points))
        names = list(dict.fromkeys(board.name_of(point) for point in points))
        found = Finding(
            kind,
            number,
            " and ".join(map(board.name, names[:3])),
            joint.what,
            list(points),
            nets=nets,
            names=names,
            sure=sure,
        )
        known = self.shorts.get(nets[0]) if kind == SHORT and sure else None
        if known:
            return found._replace(
                what=joint.what._replace(where=known.what.where),
                clues=known.clues,
                meets=known.meets,
                sides=known.sides,
                is_labelled=known.is_labelled,
            )
        return self.with_gap(found)

    def with_gap(self, finding):
        """A finding with the nearest copper of its first two nets."""
        kind, nets = finding.kind, finding.nets
        if kind == MISSING or len(nets) < 2 or -1 in nets[:2]:
            return finding
        parts = [sorted(point for name in finding.names for point in self.points.get((net, name), ())) for net in nets]
        gap = (
            self.opens.gap(nets[1], nets[0], finding.points[0])
            if kind == OPEN
            else self.opens.copper.gap(nets[0], nets[1])
            if self.board.shapes
            else None
        )
        return finding._replace(gap=gap, clues=open_clues(self.board, gap), parts=parts if kind == OPEN else [])


# ---- where the upper board is wider


def wider(low, shapes, sources):
    """[(layer, corners)]: what the upper board has beyond the lower one by more than a micrometre, command by command;
    of the upper one the pieces that may be other ones, with their sources."""
    below, above, found = defaultdict(list), defaultdict(list), []
    for piece, source in enumerate(sources):
        above[source[:3]].append(piece)
    for piece, source in enumerate(low.report.sources):
        if source[:3] in above:
            below[source[:3]].append(piece)
    for key, pieces in above.items():
        layer, ours = sources[pieces[0]][3], below[key]
        is_same = len(ours) == len(pieces) and all(low.shapes.has(p, shapes, q) for p, q in zip(ours, pieces))
        if not is_same and sources[pieces[0]][4] == layer:
            found += [
                (layer, corners) for corners in beyond([*map(low.shapes.solid, ours)], [*map(shapes.solid, pieces)])
            ]
    return found


def beyond(low, high):
    """Areas of the one that lie further than a micrometre from the other, most of whose pieces have their like at the
    same place."""
    left = [piece for k, piece in enumerate(high) if not any(near(piece, other) for other in (*low[k : k + 1], *low))]
    if not left:
        return []
    try:
        if len(low) + len(left) > MOST:
            raise Refused("too many pieces")
        items = [(True, polygon(piece, True)) for piece in left] + [
            (False, polygon(part, False)) for piece in low for part in grown(piece)
        ]
        return [corners for corners, _ in Sweep([it for it in items if it[1]], False).out]
    except Refused:
        return [polygon(piece, True) for piece in left]


def near(piece, other):
    """Whether a piece is another one but for less than a micrometre."""
    if isinstance(piece, Capsule) and isinstance(other, Capsule):
        return piece[:2] == other[:2] and piece.radius - other.radius <= MICROMETRE
    if not isinstance(piece, Area) or not isinstance(other, Area) or len(piece.corners) != len(other.corners):
        return False
    pairs = zip(piece.corners, other.corners)
    return all(abs(a - b) * 3 <= 2 * MICROMETRE for p, q in pairs for a, b in zip(p, q))


def grown(piece):
    if isinstance(piece, Capsule):
        return [piece._replace(radius=piece.radius + MICROMETRE)]
    return [piece] + [Capsule(a, b, MICROMETRE) for a, b in edges(piece.corners)]
