"""The findings of a report: opens, shorts, and test points without copper."""
from boardnet_show.base import facts

from . import shorts
from .finding import MISSING, OPEN, SUGGESTED, Clue, Finding
from .nearest_copper import NearestCopper, NearestPoints, Stacked


class Opens:
    """Each open: a part of a name that stands apart from the name's home."""

    def __init__(self, board):
        self.board, self.points = board, NearestPoints(board)
        self.copper, self.stacked = NearestCopper(board), Stacked(board)
        self.parts = {}
        for name, *_ in board.report.opens:
            self.parts[name] = self.parts.get(name, 1) + 1

    def gap(self, home, other, here):
        """Where to look: a lost hole, or the nearest copper."""
        if not self.board.shapes:
            return None
        return self.stacked.gap(other, home, self.board.spot(here)) or self.copper.gap(other, home)

    def finding(self, number, name, home, other, point):
        board, here, there, away = self.board, point, self.points.members[name, home][0], None
        if board.spot(here) and board.spot(there):
            squared, there, here = self.points.pair(name, home, other)
            away = squared**0.5
        parts = [self.points.members[name, net] for net in (other, home)]
        told = facts.NotJoined(
            board.point_at(here),
            board.point_at(there),
            away,
            board.name(name),
            self.parts[name],
            (pins(board, parts[0]), pins(board, parts[1])),
        )
        gap = self.gap(home, other, here)
        return Finding(
            OPEN,
            number,
            board.name(name),
            told,
            [here, there],
            nets=[other, home],
            names=[name],
            clues=open_clues(board, gap),
            parts=parts,
            gap=gap,
        )

    def all(self):
        return [self.finding(number, *it) for number, it in enumerate(self.board.report.opens)]

    def parted(self):
        """The declared ties that the copper does not have, numbered behind the report's opens; those without a point
        are no findings."""
        names = {}
        for point, (_, _, name, _) in enumerate(self.board.report.points):
            names.setdefault(self.board.name(name), []).append(point)
        ties = [it for it in self.board.ties.parted(self.board.report) if all(name in names for name in it.names)]
        return [self.tie(number, it, names) for number, it in enumerate(ties, len(self.board.report.opens))]

    def tie(self, number, tie, points):
        board, (one, other) = self.board, tie.names
        parts = [points[one], points[other]]
        here, there = parts[0][0], parts[1][0]
        for key, part in zip(tie.names, parts):
            self.points.members[tie, key] = part
        if all(board.spot(point) for part in parts for point in part):
            _, there, here = self.points.pair(tie, other, one)
        nets = [board.report.points[point][3] for point in (here, there)]
        gap = self.gap(nets[1], nets[0], here) if min(nets) >= 0 else None
        told = facts.TieNotMade(tie.names, tie.source, (board.point_at(here), board.point_at(there)))
        its = Finding(
            OPEN,
            number,
            tie.equation(),
            told,
            [here, there],
            names=[board.name_of(here), board.name_of(there)],
            gap=gap,
        )
        if min(nets) < 0:
            return its
        on_nets = [[point for point in part if board.report.points[point][3] == net] for part, net in zip(parts, nets)]
        return its._replace(nets=nets, clues=open_clues(board, gap), parts=on_nets)


def pins(board, members):
    """Which pins of the name are on a part."""
    return tuple(dict.fromkeys(board.pin(point) for point in members))


def open_clues(board, gap):
    if gap is None:
        return [Clue(SUGGESTED, facts.NoCommonLayer())] if board.shapes else []
    where = board.copper_at(gap.place, gap.layer)
    if gap.below:
        return [Clue(SUGGESTED, facts.HoleMissing(where, board.manifest.layer_word(gap.below)))]
    return [Clue(SUGGESTED, facts.ComesNearest(max(gap.distance, 0), where))]


def missing(board):
    """Each test point without copper."""
    for number, point in enumerate(board.report.bare):
        name = board.name_of(point)
        told = facts.NoCopper(board.manifest.copper[board.layer(point) - 1], board.named_point(point))
        yield Finding(MISSING, number, board.name(name), told, [point], names=[name])


def all_findings(board):
    opens = Opens(board)
    return [*opens.all(), *opens.parted(), *shorts.findings(board), *missing(board)]


def flood(report):
    """Where most points have no copper, so that what follows has one cause; else None."""
    bare, points = len(report.bare), len(report.points)
    return None if bare < 4 or 2 * bare <= points else facts.Flood(bare, points)
