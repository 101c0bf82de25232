"""Joins of no width: test points that only copper joins which touches in single places or along lines.

By our own rule such copper is joined; a fabricator may part it. So a board is looked at once more with its apertures a
little smaller: a draw, a flash of a circle, a rectangle or an obround keeps what it overlaps, and loses what it only
touches. Two contours that touch are looked at where necks are asked for.
"""
import re
from decimal import Decimal
from typing import Any, Dict, List

from boardnet_show.base.statuses import BadCopper, Stop
from boardnet_show.findings.board import Board
from boardnet_show.findings.notes import ThinJoin
from boardnet_show.formats.report import BadReport, Report
from boardnet_show.geometry.exact import Refused
from boardnet_show.intake.package import Package, beside
from boardnet_show.judging.judged import Judged

from .point_parts import joined, parts_of

APERTURE = re.compile(rb"(ADD[0-9]+[CRO],)([0-9.]+)(?:X([0-9.]+))?(?=\*)")
INCHES = re.compile(rb"MOIN\*|^G70\*", re.M)
# How much smaller an aperture is: a whole number of u in each unit.
LESS = {False: Decimal("0.000001"), True: Decimal("0.000005")}


def smaller(data: bytes) -> bytes:
    """A copper file with smaller apertures; those that are as small as that stay."""
    less = LESS[bool(INCHES.search(data))]

    def size(text: bytes) -> bytes:
        value = Decimal(text.decode())
        return text if value <= 2 * less else format(value - less, "f").encode()

    def sizes(found: "re.Match[bytes]") -> bytes:
        return found[1] + size(found[2]) + (b"X" + size(found[3]) if found[3] else b"")

    return APERTURE.sub(sizes, data)


def with_smaller(package: Package) -> Dict[str, bytes]:
    """The copper files that have apertures, with smaller ones."""
    files = {name: package.read(name) for name in dict.fromkeys(package.manifest.copper)}
    found = {name: smaller(data) for name, data in files.items()}
    return {name: data for name, data in found.items() if data != files[name]}


def parted(designed: Report, drawn: Report) -> List[List[int]]:
    """Test points of one name that are joined as designed, by the parts in which they are then: the first of each."""
    parts = (parts_of(points, drawn) for points in joined(designed).values())
    return [[part[0] for part in its] for its in parts if len(its) > 1]


def notes(program: Any, told: Judged, board: Board) -> List[ThinJoin]:
    """A note where test points have such a join alone."""
    package = told.package.between[1].package if told.package.between else told.package
    report = told.package.between[1].report if told.package.between else told.report
    try:
        files = with_smaller(package)
        answer = program.check(package.changed(beside(package, "smaller"), files)) if files else None
        drawn = Report(answer.out) if answer and answer.status in (0, 1) else None
    except (Stop, BadReport, BadCopper, Refused, ArithmeticError):
        return []
    # A report of another count of points is of other files.
    its = parted(report, drawn) if drawn and len(drawn.points) == len(report.points) else []
    if not its:
        return []
    return [ThinJoin(board.points_at(its[0]), board.name(board.name_of(its[0][0])), len(its) - 1)]
