"""Where an upper and a lower board differ: pieces that touch above, of commands whose copper is on other nets below.

A second look at both packages that says only where: pieces by `flatten`'s normal form and by the reports' sources.
"""
from collections import defaultdict, deque

from boardnet_show.base import facts
from boardnet_show.base.statuses import BadCopper
from boardnet_show.geometry.touching import Touching

from . import board_copper

FEW = 3  # places that are told of a finding
MOST = 20_000  # pieces of a net that is looked at


class Differing:
    """Both judged packages; `sources` are, for each side and file, the user's command of each new one."""

    def __init__(self, program, low, high, sources):
        self.low, self.high = low, high
        self.manifest, self.report = high.package.manifest, high.report
        self.shapes, self.graphs, self.pieces = None, {}, defaultdict(list)
        for piece, net in enumerate(high.report.net_of):
            self.pieces[net].append(piece)
        self.keys = [list(self.commands(told.report, by_file)) for told, by_file in zip((low, high), sources)]
        self.below = defaultdict(set)
        for piece, key in enumerate(self.keys[0]):
            self.below[key].add(low.report.net_of[piece])
        try:
            self.shapes = board_copper.shapes_of_judged(program, high)
            self.touching = Touching(self.shapes, [source[3:] for source in high.report.sources])
        except BadCopper:
            pass

    def commands(self, report, by_file):
        """For each piece the file, the user's command, and the copy."""
        for file, command, copy, *_ in report.sources:
            old = by_file.get(self.manifest.files[file]) if file < self.manifest.layers else None
            yield file, old[command - 1] if old else command, copy

    def nodes(self, piece):
        """The lower nets of a piece's command, or the command where it is left out below."""
        key = self.keys[1][piece]
        return self.below.get(key) or {key}

    def graph(self, net):
        """The lower nets that touches of an upper net join: for each the others, with the touching pieces. A net may
        have many findings."""
        if net not in self.graphs:
            self.graphs[net] = self.joined(self.pieces[net])
        return self.graphs[net]

    def joined(self, pieces):
        near = defaultdict(dict)
        pairs = [(piece, piece) for piece in pieces if len(self.nodes(piece)) > 1]
        for p, q in pairs + list(self.touching.pairs(pieces)) if len(pieces) <= MOST else []:
            for a in self.nodes(p):
                for b in self.nodes(q):
                    if a != b:
                        near[a].setdefault(b, (p, q))
                        near[b].setdefault(a, (p, q))
        return near

    def way(self, near, start, end):
        """The touches on a shortest way between two lower nets."""
        came, queue = {start: None}, deque([start])
        while queue and end not in came:
            node = queue.popleft()
            for other, pair in near[node].items():
                if other not in came:
                    came[other] = node, pair
                    queue.append(other)
        found = []
        while end in came and came[end]:
            end, pair = came[end]
            found.append(pair)
        return found[::-1]

    def touches(self, points):
        """Where the upper board joins points that the lower one parts."""
        nets = [self.low.report.points[point][3] for point in points]
        near, found = self.graph(self.report.points[points[0]][3]), {}
        for other in nets[1:]:
            if nets[0] >= 0 and other >= 0:
                found.update(dict.fromkeys(self.way(near, nets[0], other)))
        return list(found)[:FEW]

    def touch_place(self, p, q):
        """Where, and on which layer."""
        layer = max(self.report.sources[p][3], self.report.sources[q][3])
        if p == q:
            return (*self.touching.middle(p), layer)
        return (*self.touching.touching_place(p, q), layer)

    def source(self, piece):
        file, command, _ = self.keys[1][piece]
        return facts.Source(self.manifest.files[file], command, self.manifest.is_drilled(file))

    def touch(self, pair):
        x, y, layer = self.touch_place(*pair)
        return facts.Touch(tuple(map(self.source, pair)), self.manifest.layer_word(layer), (x, y))

    def placed(self, finding):
        """A finding of the upper board alone, with the places that make it."""
        is_placed = finding.is_sure or finding.kind == "missing" or not self.shapes
        pairs = [] if is_placed else self.touches(finding.points)
        if not pairs:
            return finding
        return finding._replace(
            what=finding.what._replace(touches=tuple(map(self.touch, pairs))),
            places=[self.touch_place(*pair) for pair in pairs] + finding.places,
        )
