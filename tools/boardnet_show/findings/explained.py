"""All that is known of a board once it was judged, as a value: each step gives one with more in it."""
import os
from typing import TYPE_CHECKING, Any, Dict, List, NamedTuple, Optional, Sequence, Tuple

from boardnet_show.formats.report import Report
from boardnet_show.intake.package import Taken
from boardnet_show.judging import net_ties
from boardnet_show.judging.answers import Answer, Counts

from .board import Board
from boardnet_show.base.facts import Flood
from .finding import GAP, Finding
from .waivers import Waived, Waiver

if TYPE_CHECKING:  # most boards have no bounds, and loading takes longer than a small board
    from boardnet_show.judging.two_bounds import Bounded


class Explained(NamedTuple):
    """`board` is None where nothing was judged. `notes` are on what was taken and what is not known, `hints`
    answers of `check` on changed copies, `bounds` the answer on a board that lies between two, `reports` the report
    twice, or those of a lower and an upper board, `report` its text, `taken` what its files were taken as, `declared`
    what is declared of them, `stale` the waivers of no finding, `wider` what an upper board has beyond a lower one, as
    (layer, corners), `flattened` the files whose macros were written out, `unflattened` the program's line on each of
    which that could not be."""

    title: str
    answer: Answer
    audit: str = ""
    ties: net_ties.Ties = net_ties.Ties()
    board: Optional[Board] = None
    findings: Sequence[Finding] = ()
    hints: Sequence[Any] = ()
    bounds: "Optional[Bounded]" = None
    reports: Sequence[Report] = ()
    report: bytes = b""
    mends: Sequence[Any] = ()
    notes: Sequence[Any] = ()
    flood: Optional[Flood] = None
    taken: Sequence[Taken] = ()
    declared: Sequence[Any] = ()
    waived: Sequence[Waived] = ()
    stale: Sequence[Waiver] = ()
    unlooked: Sequence[Waiver] = ()
    wider: Sequence[Tuple[int, Any]] = ()
    flattened: Sequence[str] = ()
    unflattened: Dict[str, str] = {}

    def noted(self, *notes: Any) -> "Explained":
        return self._replace(notes=[*self.notes, *notes])

    def counts(self) -> Counts:
        """What the line counts: lines of the report, but for shorts that are declared ties, and apart the ties that no
        copper makes. Between two bounds these are of the board that makes them certain: shorts of the lower one, all
        else of the upper one."""
        low, high = self.reports
        return self.ties.counts(high)._replace(shorts=self.ties.counts(low).shorts)

    def sure(self) -> Tuple[int, int]:
        """How many findings are certain, with ties of names that no test point has, and how many are undecided."""
        sure = [it.sure is not False for it in self.findings if it.kind != GAP]
        return sum(sure) + len(self.lost_ties()), len(sure) - sum(sure)

    def lost_ties(self) -> List[str]:
        """What is told of ties of names that no test point has, and that so have no place."""
        return net_ties.lost(self.ties, self.board.report) if self.board else []


def title_of(path: str) -> str:
    return os.path.basename(os.path.normpath(path)) or path
