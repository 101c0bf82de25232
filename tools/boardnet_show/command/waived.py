"""Waivers of a judged board: the findings that they are of count no more."""
from typing import List, Optional, Sequence, Tuple

from boardnet_show.base.statuses import NOT_UNDERSTOOD, UNDECIDED, Stop
from boardnet_show.base.wording import counted, spoken
from boardnet_show.findings import between_bounds
from boardnet_show.findings.board import Board
from boardnet_show.findings.explained import Explained
from boardnet_show.findings.besides import Requested
from boardnet_show.findings.finding import GAP, MISSING, NECK, OPEN, SHORT, Finding
from boardnet_show.findings.waivers import BESIDES, KINDS, OF_NETLIST, Waived, Waiver, Waivers, waiver_of
from boardnet_show.judging import board_copper
from boardnet_show.judging.answers import Answer

WAIVE = "--waive"


def upper_board(program, package, seen: Explained, wants_copper: bool) -> Board:
    """The upper of two bounds, with its copper where shorts are waived."""
    high = package.between[2]
    shapes = board_copper.shapes_of_judged(program, high) if wants_copper else None
    return between_bounds.board_of(high, package.sides.sources[1], shapes, ties=seen.ties)


def asked_findings(asked, findings: Sequence[Finding], kinds: Sequence[str]) -> List[Tuple[Finding, str, str]]:
    """The findings of these kinds that are named on the command line, each with the reason and the words."""
    known, its = {it.id: it for it in findings}, []
    for text in asked.waive:
        name, _, reason = text.partition("=")
        kind = name.rpartition("-")[0]
        if kind not in KINDS or not reason.strip() or kind in kinds and name not in known:
            raise Stop(
                NOT_UNDERSTOOD, f"{WAIVE} {text}: it is the name of a finding here, and a reason, as short-0=REASON"
            )
        if kind in kinds:
            its.append((known[name], reason.strip(), text))
    return its


def today() -> str:
    import datetime  # few boards have such an option

    return datetime.datetime.now(datetime.timezone.utc).strftime("%Y-%m-%d")


def asked_waivers(asked, seen: Explained, high: Board) -> List[Waiver]:
    """The waivers of findings of the netlist that are named on the command line."""
    return [
        waiver_of(it, seen.board, high, reason, asked.author, today())._replace(source=WAIVE)
        for it, reason, _ in asked_findings(asked, seen.findings, OF_NETLIST)
    ]


def with_waivers(program, told, seen: Explained, signed: Sequence[Waiver], asked) -> Explained:
    """What is known of a board once waivers are taken into account."""
    if not seen.board or seen.answer.status not in (0, 1, UNDECIDED):
        return seen
    signed = [it for it in signed if it.kind in OF_NETLIST]
    has_shorts = any(it.kind == SHORT for it in seen.findings)
    high = upper_board(program, told.package, seen, has_shorts) if seen.bounds else seen.board
    waivers = Waivers([*signed, *asked_waivers(asked, seen, high)], seen.board, high)
    found = waivers.of_all(seen.findings)
    left = [finding for finding, waiver in zip(seen.findings, found) if not waiver]
    waived = [Waived(finding, waiver) for finding, waiver in zip(seen.findings, found) if waiver]
    seen = seen._replace(waived=waived, stale=waivers.stale())
    return seen if not waived else counted_again(seen._replace(findings=left), found)


def counted_again(seen: Explained, found: Sequence[Optional[Waiver]]) -> Explained:
    """The answer by the findings that are left."""
    if not seen.bounds:
        return seen._replace(answer=without(seen.answer, seen, [it.finding for it in seen.waived]))
    certain, undecided = seen.sure()
    both = seen.answer.both._replace(certain=certain, undecided=undecided)
    answer = seen.answer._replace(status=1 if certain else UNDECIDED if undecided else 0, both=both)
    bounds = seen.bounds._replace(
        answer=answer, findings=[row for row, waiver in zip(seen.bounds.findings, found) if not waiver]
    )
    return seen._replace(answer=answer, bounds=bounds)


def without(answer: Answer, seen: Explained, waived: Sequence[Finding]) -> Answer:
    """The answer by the report without findings that are waived; opens behind the report's are ties that no copper
    makes."""
    ties = sum(it.kind == OPEN and it.number >= len(seen.board.report.opens) for it in waived)
    of = {kind: sum(it.kind == kind for it in waived) for kind in OF_NETLIST}
    all_counts = seen.counts()
    counts = all_counts._replace(
        opens=all_counts.opens - of[OPEN] + ties,
        shorts=all_counts.shorts - of[SHORT],
        missing=all_counts.missing - of[MISSING],
        open_ties=all_counts.open_ties - ties,
    )
    return answer._replace(status=int(any(counts)), counts=counts)


# ---- what is found besides


class Besides:
    """The waivers of what is found on a judged board beside its netlist, and whether each is of a finding."""

    def __init__(self, program, told, seen: Explained, asked) -> None:
        self.program, self.told, self.seen, self.asked = program, told, seen, asked
        self.looks = {}

    def look(self, kind: str):
        """What compares copper, made once."""
        if kind not in self.looks:
            self.looks[kind] = self.gaps() if kind == GAP else self.necks()
        return self.looks[kind]

    def gaps(self):
        from boardnet_show.extras.waived_gaps import Gaps  # few boards have such waivers
        from boardnet_show.netlists.tester import copper_of, with_copper

        package, board = self.told.package, copper_of(self.program, self.told, self.seen.board)
        high = with_copper(self.program, package.between[2], package.sides.sources[1]) if package.between else None
        return Gaps(self.asked.gaps, board, high)

    def necks(self):
        from boardnet_show.extras.as_made.waived_necks import Necks  # few boards have such waivers

        return Necks(self.program, self.told, self.seen.board, self.asked.necks)

    def asked_waivers(self, findings: Sequence[Finding]) -> List[Waiver]:
        """The waivers of findings that are named on the command line."""
        told = []
        for it, reason, text in asked_findings(self.asked, findings, BESIDES):
            board = self.seen.board
            waiver = waiver_of(it, board, board, reason, self.asked.author, today())._replace(source=WAIVE)
            its = self.look(it.kind).signed(it, waiver) if it.kind in (GAP, NECK) else waiver
            if not its:
                raise Stop(
                    NOT_UNDERSTOOD,
                    f"{WAIVE} {text}: its places are not known, or are too many, or nothing there has a name",
                )
            told.append(its)
        return told

    def of_all(self, findings: Sequence[Finding], waivers: Sequence[Waiver]) -> Tuple[List[Waived], List[Waiver]]:
        """The findings that are waived, each by one waiver of its own, and the waivers that are of none."""
        left, found, names = list(waivers), [], Waivers([], self.seen.board, self.seen.board)
        for finding in findings:
            its = next((it for it in left if self.is_of(names, it, finding)), None)
            if its:
                left.remove(its)
                found.append(Waived(finding, its))
        return found, left

    def is_of(self, names: Waivers, waiver: Waiver, finding: Finding) -> bool:
        return names.is_of(waiver, finding) and (
            finding.kind not in (GAP, NECK) or self.look(finding.kind).is_of(waiver, finding)
        )


def with_besides(
    program, told, seen: Explained, its: Requested, signed: Sequence[Waiver], asked
) -> Tuple[Explained, Requested]:
    """The same with waivers of what is found besides; those of kinds that were not looked for are told so."""
    if not seen.board or seen.answer.status not in (0, 1, UNDECIDED):
        return (
            seen.noted(f"{counted(len(signed), 'waiver')} not looked at, since the board is not judged")
            if signed
            else seen
        )._replace(unlooked=list(signed)), its
    signed, look = [it for it in signed if it.kind in BESIDES], Besides(program, told, seen, asked)
    findings = [it for it in its.findings if it.kind in BESIDES]
    waived, stale = look.of_all(findings, [*signed, *look.asked_waivers(findings)])
    unlooked = [it for it in stale if it.kind not in its.kinds]
    seen = seen._replace(
        waived=[*seen.waived, *waived],
        stale=[*seen.stale, *(it for it in stale if it.kind in its.kinds)],
        unlooked=unlooked,
    )
    if unlooked:
        seen = seen.noted(
            f"{counted(len(unlooked), 'waiver')} of what was not looked for: {spoken(kinds_of(unlooked))}"
        )
    return seen, its.without([it.finding for it in waived]) if waived else its


def kinds_of(waivers: Sequence[Waiver]) -> List[str]:
    return [f"the {it.kind} of {spoken(it.names)}" for it in waivers]
