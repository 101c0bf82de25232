"""What unplated holes and the board's edge take away from a judged board, as findings and notes."""
from typing import Any, List, NamedTuple, Optional, Sequence, Tuple

from boardnet_show.base.facts import OutsideEdge
from boardnet_show.base.statuses import BadCopper, Stop
from boardnet_show.bounds.files import profiles
from boardnet_show.findings.besides import AS_MADE, Requested, found
from boardnet_show.findings.board import Board
from boardnet_show.findings.finding import CUT, OUTSIDE, Finding
from boardnet_show.findings.notes import EdgeNotKnown, HarmlessHoles, HolesNotRead, LossNotKnown, MadeCounted
from boardnet_show.geometry.exact import Refused
from boardnet_show.geometry.pieces import Area
from boardnet_show.geometry.segments import odd_inside
from boardnet_show.intake.unplated_holes import UnplatedHoles
from boardnet_show.judging.judged import Judged

from .cuts import MadeBoard, findings_of, harmless
from .removals import Removal, of_edge, of_holes


class Edge(NamedTuple):
    """What lies outside the board's edge, where it is known, else why it is not."""

    removal: Optional[Removal]
    why: str = ""


def edge_of(texts: Sequence[str], board: Board) -> Edge:
    """The board's edge by its profile files; none where no file is one. One that leaves most test points outside is not
    this board's."""
    if not texts:
        return Edge(None)
    try:
        outline = profiles.outline_of(texts, [])
    except Refused as why:
        return Edge(None, str(why))
    removal = (
        None if outline.why else of_edge(outline, [board.spot(point) for point in range(len(board.report.points))])
    )
    if removal is None:
        return Edge(None, outline.why or "its profile has no inside")
    if 2 * len(points_outside(board, removal)) > len(board.report.points):
        return Edge(None, "most test points lie outside its profile, as from another origin")
    return Edge(removal)


def points_outside(board: Board, edge: Removal) -> List[int]:
    """The test points that lie outside the edge, and not on it."""
    areas = [piece.corners for piece in edge.clear.both[0] if isinstance(piece, Area)]
    return [
        point
        for point in range(len(board.report.points))
        if sum(odd_inside(area, board.spot(point)) for area in areas) % 2
    ]


def outside_findings(board: Board, edge: Removal, first: int) -> List[Finding]:
    """A finding for each test point outside the edge."""
    told = []
    for number, point in enumerate(points_outside(board, edge), first):
        name = board.name_of(point)
        what = OutsideEdge(board.named_point(point))
        told.append(Finding(OUTSIDE, number, board.name(name), what, [point], names=[name]))
    return told


def bounds_of(told: Judged) -> Tuple[Judged, Judged]:
    """The judged boards between which a board lies; the same twice where it is known."""
    return told.package.between[1:] if told.package.between else (told, told)


def look(
    program: Any, told: Judged, board: Board, removals: Sequence[Removal], edge: Edge
) -> Tuple[List[Finding], List[HarmlessHoles]]:
    """The findings of the made board, and notes; Refused, BadCopper or Stop where they are not known."""
    made = MadeBoard(program, board, *bounds_of(told), removals)
    numbers = made.numbers()
    groups = made.groups(numbers) if numbers else []
    if edge.removal:
        # Points outside the edge have findings of their own.
        beyond = set(points_outside(board, edge.removal))
        groups = [it for it in (it.without(beyond) for it in groups) if it]
    findings = findings_of(made, groups, bool(told.package.between))
    if edge.removal:
        findings += outside_findings(board, edge.removal, sum(it.kind == OUTSIDE for it in findings))
    return findings, harmless(made, groups)


def counts_of(findings: Sequence[Finding]) -> MadeCounted:
    """What the answer says of them."""
    cuts, outside = (sum(it.kind == kind and it.sure is not False for it in findings) for kind in (CUT, OUTSIDE))
    return MadeCounted(cuts, outside, sum(it.sure is False for it in findings))


def requested(
    program: Any, told: Judged, board: Board, holes: Sequence[UnplatedHoles], texts: Sequence[str]
) -> Requested:
    """What the made board has less than the designed one."""
    program.progress.begin("looking at the board as it is made")
    edge = edge_of(texts, board)
    notes: List[Any] = [HolesNotRead(its.file) for its in holes if not its.is_read]
    notes += [EdgeNotKnown(edge.why)] if edge.why else []
    removals = [removal for its in holes for removal in of_holes(its)] + ([edge.removal] if edge.removal else [])
    known = [*([CUT] if all(its.is_read for its in holes) else []), *([] if edge.why else [OUTSIDE])]
    if not removals:
        return Requested(notes=notes, kinds=known)
    try:
        findings, more = look(program, told, board, removals, edge)
    except (Refused, BadCopper, Stop) as why:
        return Requested(notes=[*notes, LossNotKnown(str(why))])
    besides = [found(AS_MADE, findings, counts_of(findings))] if findings else []
    return Requested(besides, findings, [*notes, *more], known)
