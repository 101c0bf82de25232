"""What is found or made beside the answer on the netlist: how each part ended, and its findings."""
from typing import Any, NamedTuple, Optional, Sequence, Tuple

from boardnet_show.base.statuses import UNDECIDED, UNJUDGED

from .finding import CUT, GAP, NECK, OUTSIDE, Finding
from .notes import SomeWaived

GAPS, AS_MADE, NECKS, BOARD_AUDIT = "gaps between nets", "the board as it is made", "necks", "holes by the netlist"
KINDS = {GAPS: (GAP,), AS_MADE: (CUT, OUTSIDE), NECKS: (NECK,)}
# What was found in its course: its name, what it is, and places.
Detail = Tuple[str, Any, Any]


class Beside(NamedTuple):
    """What was asked for beside the netlist: its name in lists of cases, its own status, what became of it, and (name,
    what, places) of each thing that was found. What became of it and each thing are notes."""

    what: str
    status: int
    said: Any
    details: Tuple[Detail, ...] = ()
    # What was found where these are findings, which all forms have by themselves.
    findings: Sequence[Finding] = ()

    def causes(self) -> Sequence[Detail]:
        """Why its status is not 0, or nothing."""
        return ([*self.details] or [(self.what, self.said, ())]) if self.status else []


class Requested(NamedTuple):
    """What became of it: findings and notes for the board's, of which kinds all are known, what is told besides in
    lines, and what there is of each kind."""

    besides: Sequence[Beside] = ()
    findings: Sequence[Finding] = ()
    notes: Sequence[Any] = ()
    kinds: Sequence[str] = ()
    gap_count: Optional[int] = None
    like: Any = None
    tester: Any = None
    record: Any = None

    def joined(self, other: "Requested") -> "Requested":
        """Both: lists one behind the other, and of the rest what is there."""
        lists = ((*one, *two) for one, two in zip(self[:4], other[:4]))
        return Requested(*lists, *(one if two is None else two for one, two in zip(self[4:], other[4:])))

    def without(self, waived: Sequence[Finding]) -> "Requested":
        """The same with some findings that count no more, which its words say."""
        gone = {it.id for it in waived}
        left = [it for it in self.findings if it.id not in gone]
        count = self.gap_count
        if count is not None:
            count = sum(it.kind == GAP and it.sure is not False for it in left)
        return self._replace(besides=[less(it, left, waived) for it in self.besides], findings=left, gap_count=count)


def less(beside: Beside, left: Sequence[Finding], waived: Sequence[Finding]) -> Beside:
    """What was looked for, by the findings that are left of it."""
    kinds = KINDS.get(beside.what, ()) if beside.findings else ()
    gone, its = sum(it.kind in kinds for it in waived), [it for it in left if it.kind in kinds]
    if not gone:
        return beside
    return found(beside.what, its, SomeWaived(beside.said, gone, len(its)))


def lacking(what: str, why: Any, details: Tuple[Detail, ...] = ()) -> Beside:
    """Something that was asked for is not known."""
    return Beside(what, UNJUDGED, why, details)


def outcome(what: str, certain: int, possible: int, said: Any, details: Tuple[Detail, ...] = ()) -> Beside:
    """Something that was looked for beside the netlist, and how much of it there is."""
    return Beside(what, 1 if certain else UNDECIDED if possible else 0, said, details)


def found(what: str, findings: Sequence[Finding], said: Any) -> Beside:
    """Findings of a kind that was looked for."""
    certain = sum(it.sure is not False for it in findings)
    return outcome(what, certain, len(findings) - certain, said)._replace(findings=findings)


def status_with(status: int, besides: Sequence[Beside]) -> int:
    """The status of a board with what was asked for besides: what is not known counts where all else is right, findings
    where no board differs."""
    for it in besides:
        if it.status == UNJUDGED:
            status = status or UNJUDGED
        elif status in (0, UNDECIDED):
            status = it.status or status
    return status
