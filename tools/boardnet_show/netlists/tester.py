"""The netlist for a tester: of a judged board, or of the lower one of two bounds, given out where `check` confirms
it."""
from typing import Any, Iterable, NamedTuple, Optional, Sequence, Tuple

from boardnet_show.base.statuses import BadCopper, Stop
from boardnet_show.findings import between_bounds
from boardnet_show.findings.board import Board
from boardnet_show.intake.mends import netlist_mends
from boardnet_show.intake.package import Package, beside
from boardnet_show.judging import board_copper
from boardnet_show.judging.judged import Judged
from boardnet_show.judging.program import Program

from . import pad_list
from .tester_records import Netlist
from .tooling_holes import tooling


class Confirmed(NamedTuple):
    """Whether `check` agrees with a netlist and `audit` with that report, and what they say; `audit` is empty where the
    board was not judged, `is_asked` false where `check` could not be asked."""

    is_right: bool
    check: str
    audit: str = ""
    is_asked: bool = True


class Tester(NamedTuple):
    """`text` is None where nothing was confirmed, and `netlist` has the records, None where there are none, which `why`
    says. `is_whole` but where the upper of two bounds joins what it has apart; `below` and `above` are what is said of
    the netlist on the board, or on its lower bound, and on its upper one."""

    text: Optional[str]
    netlist: Optional[Netlist]
    is_whole: bool = True
    why: str = ""
    below: Optional[Confirmed] = None
    above: Optional[Confirmed] = None


def with_copper(program: Program, told: Judged, sources: Iterable[Any] = (), known: Any = None) -> Board:
    """A judged package as a board whose copper is known; one of two bounds with the user's commands by `sources`."""
    board: Board = between_bounds.board_of(told, dict(sources), board_copper.shapes_of_judged(program, told, known))
    return board


def copper_of(program: Program, told: Judged, board: Optional[Board], known: Any = None) -> Board:
    """The board whose copper is told of, the lower one of two; `board` where its copper is known already, `known` as
    for shapes."""
    if board and board.shapes:
        return board
    if told.report:
        return with_copper(program, told, known=known)
    between, sides = told.package.between, told.package.sides
    if not between or not sides:
        raise Stop(told.status, told.line)
    return with_copper(program, between[1], sides.sources[0], known)


def confirmed(program: Program, package: Package, text: str) -> Confirmed:
    """Whether `check` agrees with the netlist, mended where it has forms of its own, and `audit` confirms that
    report."""
    data, _ = netlist_mends.mended(text.encode("latin-1"), package.manifest.layers)
    copy = package.changed(beside(package, "tester"), {package.manifest.netlist: data})
    answer = program.check(copy)
    if answer.status not in (0, 1):
        return Confirmed(False, answer.line)
    audit = program.audit(copy, answer.out)
    is_right: bool = (answer.status, audit.status) == (0, 0) and b"\npoints 0\n" not in answer.out
    audited = audit.out.decode("ascii", "replace").strip() or audit.line
    return Confirmed(is_right, answer.line, audited)


def above(program: Program, base: Package, text: str) -> Confirmed:
    """What the upper of two bounds says of the netlist: where both agree, so does the board between them."""
    high: Judged = base.between[2]  # type: ignore[index]
    return confirmed(program, high.package, text)


def made(
    program: Program,
    told: Judged,
    title: str,
    board: Optional[Board] = None,
    known: Any = None,
    adjacent: Optional[Sequence[Tuple[int, int]]] = None,
) -> Tester:
    """The netlist of a judged package. `adjacent` are pairs of nets that are close to each other, or None."""
    try:
        board, base = copper_of(program, told, board, known), told.package if told.package.between else None
        its = Netlist(pad_list.Padlist(board, pad_list.origins(board, base)), title, tooling(told.package), adjacent)
    except (Stop, BadCopper) as why:
        return Tester(None, None, why=str(why))
    text = its.netlist_text()
    try:
        below = confirmed(program, board.package, text)
        upper = above(program, base, text) if base and below.is_right else None
    except Stop as stop:
        below, upper = Confirmed(False, str(stop), is_asked=False), None
    is_whole = upper is None or upper.is_right
    return Tester(text if below.is_right else None, its, is_whole, below=below, above=upper)
