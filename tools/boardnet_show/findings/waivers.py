"""Findings that somebody has signed for: told and counted, and no failure.

A waiver is of one finding alone: of an open by the pins that stand apart, of a point without copper by its pin and
place, of a short by the place where its names meet. A short is waived where, without what touches within that place, no
copper joins two of its names: else there is another one. What a waiver does not find is told as stale. Of what is found
beside the netlist, the pins and places are compared here, and copper where that is found (`extras.waived_gaps`,
`extras.as_made.waived_necks`).
"""
from collections import Counter
from typing import Dict, FrozenSet, List, NamedTuple, Optional, Sequence, Set, Tuple

from boardnet_show.base.wording import millimetres
from boardnet_show.formats.report import Report

from .board import Board
from .finding import CUT, GAP, MISSING, NECK, OPEN, OUTSIDE, SHORT, Finding

OF_NETLIST = (OPEN, SHORT, MISSING)
BESIDES = (GAP, CUT, OUTSIDE, NECK)
KINDS = OF_NETLIST + BESIDES
NEAR = 50_000  # 5 micrometres: two roundings of a netlist's place
WITHIN = 10_000_000  # the radius of a short's place where the waiver says none, and the most that it may say
MOST_WITHIN = 50_000_000

Place = Tuple[int, int, int]


class Waiver(NamedTuple):
    """What is waived, by whom, when and why. `pins` are of an open those of each part that stands apart; `places`
    (x, y, layer) in u. Of a gap `nets` are the names of both, and `distances` how near they may come at each place; of
    a neck `width` is how narrow it may be; of these and of cuts `parts` says how many there are, and `bare` which
    points have no copper left. What was undecided when it was signed for covers no certain finding."""

    kind: str
    names: Tuple[str, ...]
    reason: str
    author: str
    date: str
    pins: Tuple[FrozenSet[str], ...] = ()
    places: Tuple[Place, ...] = ()
    within: int = WITHIN
    source: str = ""
    nets: Tuple[Tuple[str, ...], ...] = ()
    distances: Tuple[int, ...] = ()
    width: int = 0
    parts: int = 0
    bare: FrozenSet[str] = frozenset()
    is_undecided: bool = False


class Waived(NamedTuple):
    """A finding with its waiver."""

    finding: Finding
    waiver: Waiver


# ---- what a waiver of a finding would say


class Pins:
    """The pins of findings, by the points of each name."""

    def __init__(self, board: Board, report: Report) -> None:
        self.board, self.report = board, report
        self.of_name: Dict[int, List[int]] = {}
        for point, (_, _, name, _) in enumerate(report.points):
            self.of_name.setdefault(name, []).append(point)
        self.counts = Counter(map(self.component_pin, range(len(report.points))))

    def component_pin(self, point: int) -> str:
        record = self.board.record(point)
        return (
            f"{record.component}-{record.pin}"
            if record and record.component and record.pin and record.component != "VIA"
            else ""
        )

    def pin(self, point: int) -> str:
        """A point by its part and pin where no other one has these, else with its place: a pin may have several
        pads."""
        pin, (x, y) = self.component_pin(point), self.board.spot(point)
        return (
            pin
            if pin and self.counts[pin] == 1
            else f"{pin}@{millimetres(x)},{millimetres(y)},{self.board.layer(point)}"
        )

    def part(self, finding: Finding, point: int) -> FrozenSet[str]:
        """The pins of a finding's names that copper joins to one of its points."""
        net = self.report.points[point][3]
        points = [
            other
            for name in finding.names
            for other in self.of_name.get(name, ())
            if self.report.points[other][3] == net
        ]
        return frozenset(self.pin(other) for other in points) if net >= 0 else frozenset([self.pin(point)])

    def of(self, finding: Finding) -> Tuple[FrozenSet[str], ...]:
        """Of an open those of each part but the second one, where the name is at home; of what is parted otherwise
        those of each part but the largest; of a point its own."""
        if finding.kind == OPEN:
            its = [self.part(finding, point) for k, point in enumerate(finding.points) if k != 1]
            return tuple(sorted(its, key=sorted))
        if finding.kind in (CUT, OUTSIDE, NECK) and finding.parts:
            parts = sorted(
                (frozenset(map(self.pin, part)) for part in finding.parts), key=lambda pins: (len(pins), sorted(pins))
            )
            return tuple(sorted(parts[:-1] or parts, key=sorted))
        return (frozenset([self.pin(finding.points[0])]),) if finding.kind in (MISSING, OUTSIDE) else ()

    def bare(self, finding: Finding) -> FrozenSet[str]:
        return frozenset(map(self.pin, finding.bare))


def names_of(board: Board, finding: Finding) -> FrozenSet[str]:
    return frozenset(board.name(name) for name in finding.names)


def places_of(board: Board, finding: Finding) -> List[Place]:
    if finding.kind == SHORT:
        return list(dict.fromkeys((round(meet.place[0]), round(meet.place[1]), meet.layer) for meet in finding.meets))
    if finding.places:
        return list(finding.places)
    point = finding.points[0]
    return [(*board.spot(point), board.layer(point))]


# ---- whether one is of a finding


def is_near(one: Place, other: Place, most: int) -> bool:
    return one[2] == other[2] and (one[0] - other[0]) ** 2 + (one[1] - other[1]) ** 2 <= most**2


def explains(board: Board, finding: Finding, waivers: Sequence[Waiver]) -> bool:
    """Whether waivers of a short are of all places where its names meet on a board."""
    nets = sorted({board.report.points[point][3] for point in finding.points} - {-1})
    if not waivers or board.shapes is None or not nets:
        return False
    from .cut_nets import Cut  # few boards have such waivers

    discs = [(place, waiver.within) for waiver in waivers for place in waiver.places]
    return all(Cut(board, net, discs).is_explained() for net in nets)


def waiver_of(finding: Finding, low: Board, high: Board, reason: str, author: str, date: str) -> Waiver:
    """The waiver that is of a finding alone."""
    pins = Pins(low, (high if finding.sure else low).report)
    places = [] if finding.kind == OPEN else places_of(low, finding)
    its = Waiver(
        finding.kind, tuple(sorted(names_of(low, finding))), reason, author, date, pins.of(finding), tuple(places)
    )
    its = its._replace(is_undecided=finding.sure is False)
    return its if finding.kind in OF_NETLIST else its._replace(parts=len(finding.parts), bare=pins.bare(finding))


class Waivers:
    """The waivers of a board that were declared, and what became of each. `boards` are the lower and the upper one,
    or the board twice."""

    def __init__(self, waivers: Sequence[Waiver], low: Board, high: Board) -> None:
        self.waivers, self.low, self.high = list(waivers), low, high
        self.used: Set[int] = set()
        self.pins = Pins(low, low.report), Pins(low, high.report)

    def whole(self, names: Sequence[str]) -> Set[str]:
        """Names, each the whole one where a netlist cuts it."""
        return {self.low.package.whole.get(name, name) for name in names}

    def is_of(self, waiver: Waiver, finding: Finding) -> bool:
        """Whether a waiver is of a finding, as far as names, pins and places say."""
        if waiver.kind != finding.kind or self.whole(waiver.names) != names_of(self.low, finding):
            return False
        if waiver.is_undecided and finding.sure is not False:
            return False
        if finding.kind in (SHORT, GAP):
            return True
        if finding.kind in (MISSING, CUT, OUTSIDE) and not self.is_there(waiver, finding):
            return False
        pins = self.pins[bool(finding.sure) and finding.kind in OF_NETLIST]
        if finding.kind in BESIDES and (waiver.parts, waiver.bare) != (len(finding.parts), pins.bare(finding)):
            return False
        return tuple(sorted(waiver.pins, key=sorted)) == pins.of(finding)

    def is_there(self, waiver: Waiver, finding: Finding) -> bool:
        """Whether each place of a finding is near one of its waiver, and each of these near one of it."""
        most = waiver.within if finding.kind == CUT else NEAR
        ours, theirs = places_of(self.low, finding), waiver.places
        return all(any(is_near(a, b, most) for b in theirs) for a in ours) and all(
            any(is_near(a, b, most) for b in ours) for a in theirs
        )

    def of(self, finding: Finding) -> Optional[Waiver]:
        """The waiver of a finding, or None; each but those of shorts is of one finding alone."""
        known = [
            k
            for k, it in enumerate(self.waivers)
            if self.is_of(it, finding) and (finding.kind == SHORT or k not in self.used)
        ]
        if finding.kind == SHORT and not all(
            explains(board, finding, [self.waivers[k] for k in known]) for board in (self.low, self.high)
        ):
            return None
        self.used.update(known if finding.kind == SHORT else known[:1])
        return self.waivers[known[0]] if known else None

    def of_all(self, findings: Sequence[Finding]) -> List[Optional[Waiver]]:
        return [self.of(finding) for finding in findings]

    def stale(self) -> List[Waiver]:
        """Those that are of no finding."""
        return [it for k, it in enumerate(self.waivers) if k not in self.used]
