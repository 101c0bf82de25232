"""What is made beside the findings, where it is asked for: gaps, the comparison with another board, a netlist for a
tester, a record.

Modules are loaded where they are wanted: most boards want none of them, and loading takes longer than a small board.
"""
from typing import Any, Callable, Iterator

from boardnet_show.base.statuses import UNDECIDED
from boardnet_show.findings.besides import Requested, lacking
from boardnet_show.findings.explained import Explained
from boardnet_show.findings.finding import GAP, with_short_names
from boardnet_show.findings.notes import NoTester


def wants_copper(asked) -> Any:
    return asked.ipc or asked.gaps or asked.like


def found(program, judged, seen: Explained, asked) -> Requested:
    """What is found on a board besides."""
    its = Requested()
    if seen.board and seen.answer.status in (0, 1, UNDECIDED):
        from .as_made import looks

        its = looks.requested(program, judged, seen, asked)
    if asked.gaps:
        from . import gaps

        its = its.joined(gaps.requested(program, judged, seen.board, asked.gaps))
    return (
        its._replace(findings=with_short_names(its.findings, seen.board.report.names, seen.board.report.short_names))
        if its.findings
        else its
    )


def made(program, judged, seen: Explained, its: Requested, asked, scratch: str) -> Requested:
    """The same with all that is made."""
    for step in steps(program, judged, seen, asked, scratch):
        its = its.joined(step(its))
    return its


def steps(program, judged, seen: Explained, asked, scratch: str) -> Iterator[Callable[[Requested], Requested]]:
    """What makes each of them of those before it."""
    if asked.like:
        from . import comparison

        yield lambda _: comparison.requested(program, judged, seen, asked, scratch)
    if asked.ipc:
        yield lambda its: netlist(program, judged, seen, its)
    if asked.record or asked.verify:
        from . import record

        if asked.record:
            yield lambda its: Requested(record=record.of(program, judged, seen, its))
        if asked.verify:
            yield lambda its: record.verify(program, judged, seen, its, asked.verify)


def netlist(program, judged, seen: Explained, before: Requested) -> Requested:
    """The netlist for a tester, with the nets that are too close where they were found before."""
    from boardnet_show.netlists import tester

    gaps = [*before.findings, *(it.finding for it in seen.waived)]
    close = [tuple(it.nets) for it in gaps if it.kind == GAP and len(it.nets) == 2]
    its = tester.made(program, judged, seen.title, seen.board, adjacent=None if before.gap_count is None else close)
    lacks = [lacking("netlist for a tester", NoTester(), (("netlist", NoTester(its), ()),))] if its.text is None else []
    return Requested(lacks, tester=its)
