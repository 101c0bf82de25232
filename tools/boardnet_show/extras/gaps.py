"""Nets that are too close as findings; of a board between bounds those that `gaps_between_bounds` tells."""
from bisect import bisect_left
from collections import defaultdict

from boardnet_show.base.facts import Apart, NetSide, TooClose
from boardnet_show.base.statuses import BadCopper, Stop
from boardnet_show.findings.besides import GAPS, Requested, found, lacking
from boardnet_show.findings.finding import GAP, Finding
from boardnet_show.findings.nearest_copper import Gap
from boardnet_show.findings.notes import GapRule, GapsCounted, NotKnown
from boardnet_show.formats.ipc356 import NO_NET
from boardnet_show.judging import board_copper
from boardnet_show.netlists.tester import copper_of, with_copper

from . import gaps_between_bounds
from .spacing import STEP, spacings


class Nets:
    """The names and the pins of a board's nets."""

    def __init__(self, board):
        self.board, self.points = board, defaultdict(list)
        self.names = defaultdict(dict)
        for point, (_, _, name, net) in enumerate(board.report.points):
            if net >= 0:
                self.names[net].setdefault(name)
                if board.spot(point):
                    self.points[net].append((board.spot(point)[0], point))
        for its in self.points.values():
            its.sort()

    def numbers(self, net):
        return [name for name in self.names[net] if self.board.name(name) != NO_NET]

    def side(self, net):
        """A net by its names, or the copper that the lower bound leaves out."""
        names = [] if net is None else [self.board.name(name) for name in self.numbers(net)]
        return NetSide(tuple(names), net)

    def near(self, net, place):
        """The test point of a net that is nearest to a place, or None."""
        its, best = self.points[net], None
        middle = bisect_left(its, (place[0], -1))
        for side in (range(middle, len(its)), range(middle - 1, -1, -1)):
            for k in side:
                x, point = its[k]
                if best and (x - place[0]) ** 2 > best[0]:
                    break
                found = (x - place[0]) ** 2 + (self.board.spot(point)[1] - place[1]) ** 2, point
                best = found if best is None or found < best else best
        return best and best[1]


def finding(nets, number, spacing, apart=None, sure=None, others=()):
    """Two nets on a layer that are too close, and the pins near the place. Between bounds a net and a piece that the
    lower board lacks are None, with the piece's source among the `others`."""
    board, known = nets.board, [net for net in spacing.nets if net is not None]
    sources = [others[k] if piece is None else board.source(piece) for k, piece in enumerate(spacing.pieces)]
    pins = [point for point in (nets.near(net, spacing.place) for net in known) if point is not None]
    told = TooClose(
        tuple(map(nets.side, spacing.nets)),
        apart or Apart(spacing.at_least(), is_exact=True),
        board.copper_at(spacing.place, spacing.layer),
        tuple(sources),
        tuple(map(board.pin, pins)),
    )
    names = [name for net in known for name in nets.numbers(net)]
    gap = Gap(spacing.distance // STEP * STEP, spacing.place, spacing.layer)
    pieces = [piece for piece in spacing.pieces if piece is not None]
    return Finding(GAP, number, "", told, pins, nets=known, names=names, gap=gap, pieces=pieces, sure=sure)


def of_board(program, board, u):
    """The gaps of a board, and what is counted."""
    its, listed = spacings(program, board, u)
    nets = Nets(board)
    return [finding(nets, number, it) for number, it in enumerate(its)], GapRule(u, listed, len(its))


def of_bounds(program, told, board, u):
    """The gaps of a board between two, of which `board` is the lower one."""
    known = board_copper.Known(board)
    high, nets = with_copper(program, told.package.between[2], told.package.sides.sources[1], known), Nets(board)
    its = gaps_between_bounds.gaps(program, board, high, u)
    return [
        finding(nets, number, it, apart, sure, others) for number, (sure, it, apart, others) in enumerate(its)
    ], GapRule(u)


def requested(program, judged, board, u):
    """The gaps of a judged board, whose copper may be known already."""
    try:
        board = copper_of(program, judged, board)
        its, rule = of_bounds(program, judged, board, u) if judged.package.between else of_board(program, board, u)
    except (Stop, BadCopper) as why:
        return Requested([lacking(GAPS, NotKnown("gaps", str(why)))])
    possible = sum(it.sure is False for it in its)
    count = len(its) - possible
    return Requested([found(GAPS, its, GapsCounted(count, possible, u))], its, [rule], [GAP], count)
