"""Findings as lines: grouped by name for a reader, one a line for `grep`."""
from typing import Any, Dict, Iterator, List, Sequence, Tuple

from boardnet_show.base.statuses import REFUSED, UNDECIDED, UNJUDGED
from boardnet_show.base.wording import counted
from boardnet_show.findings.finding import Finding, doubt

from .sentences import verdicts
from .shown import Shown

MOST = 20
# What became of boards, one and several, as `-q` counts them.
PLURALS = {
    0: ("agrees", "agree"),
    1: ("differs", "differ"),
    UNDECIDED: ("is undecided", "are undecided"),
    REFUSED: ("is refused", "are refused"),
    UNJUDGED: ("is not judged", "are not judged"),
}


def heading(shown: Shown) -> str:
    """The first line, as one reads it aloud."""
    return shown.sentence(shown.path)


def quiet_heading(shown: Shown) -> str:
    """The first line for scripts."""
    return f"{shown.path}: {shown.line}"


def hint_words(shown: Shown) -> List[str]:
    """The hints, in order."""
    if not shown.hints:
        return []
    from .sentences import hints  # most boards have none, and loading takes longer than a small board

    return list(map(hints.words, shown.hints))


def first_hint(shown: Shown) -> str:
    """The first hint that agrees, else the first one; nothing where there is none."""
    rows = list(zip(shown.hints, hint_words(shown)))
    return next((words for it, words in rows if it.answer.status == 0), rows[0][1] if rows else "")


def summary(shown: Shown) -> str:
    """One line of a batch: the answer, and a hint where there is one."""
    hint = first_hint(shown)
    return heading(shown) + (f" [hint: {hint}]" if hint else "")


def counted_boards(count: int, rows: Sequence[Tuple[int, Tuple[str, str]]]) -> str:
    """How many boards there are, and how many of each kind, with the words for one and for several."""
    told = ", ".join(f"{number} {one if number == 1 else many}" for number, (one, many) in rows if number)
    return f"{counted(count, 'board')}: {told}"


def total(all_shown: Sequence[Shown]) -> str:
    """The last line of a batch: how many boards there are of each answer."""
    words = [shown.word for shown in all_shown]
    return counted_boards(len(words), [(words.count(word), plural) for word, plural in verdicts.PLURALS.items()])


def quiet_total(all_shown: Sequence[Shown]) -> str:
    """The same for scripts."""
    known = [shown.status if shown.status in PLURALS else UNJUDGED for shown in all_shown]
    return counted_boards(len(known), [(known.count(status), plural) for status, plural in PLURALS.items()])


def notes(shown: Shown, is_all: bool) -> List[str]:
    """What is told before the findings: what leads on first."""
    told = [f"hint: {words}" for words in hint_words(shown)]
    if shown.seen.flood:
        from .sentences import findings  # most boards have none, and loading takes longer than a small board

        told.append(findings.flood_words(shown.seen.flood))
    return told + (shown.notes if is_all else shown.first_notes)


def bounded(shown: Shown) -> List[str]:
    """What is no sure copper of a board whose copper is not known exactly."""
    return [f"not counted as sure copper: {word}" for word in shown.bounds.left_out] if shown.bounds else []


def grouped(findings: Sequence[Finding]) -> Dict[str, List[Finding]]:
    """The findings by their names, in order of first appearance."""
    from .sentences.findings import heading  # as above

    groups: Dict[str, List[Finding]] = {}
    for finding in findings:
        groups.setdefault(heading(finding), []).append(finding)
    return groups


def blocks(shown: Shown) -> Iterator[List[str]]:
    """The lines of each finding, the first of a name with the name."""
    from .sentences import findings  # as above

    for name, members in grouped(shown.findings).items():
        for at, finding in enumerate(members):
            head = [name] if at == 0 else []
            yield head + [f"  {doubt(finding)}{finding.id}: {findings.words(finding)}"] + [
                f"      {hint}" for hint in findings.hints(finding)
            ]


def reader(shown: Shown, is_all: bool, is_explained: bool = False) -> Iterator[str]:
    """What is printed of one board: at most twenty lines of findings where not all are wanted."""
    yield heading(shown)
    yield from (f"  {row}" for row in shown.answer.rows)
    yield from notes(shown, is_all)
    printed, told = 0, 0
    for block in blocks(shown):
        if not is_all and told and printed + len(block) > MOST:
            break
        yield from block
        printed, told = printed + len(block), told + 1
    left = len(shown.findings) - told
    if left:
        yield f"{counted(left, 'further finding')}: --all prints them, --page FILE shows them"
    yield from cut(bounded(shown), is_all)
    yield from cut(list(extra_lines(shown)), is_all)
    hidden = 0 if is_all else len(shown.notes) - len(shown.first_notes)
    if hidden:
        yield f"{counted(hidden, 'note')} on rewritten files: --all prints {'it' if hidden == 1 else 'them'}"
    if is_explained:
        yield from (f"explained: {words}" for words in shown.in_rules_words())
        if shown.board:
            report = shown.board.report
            yield f"explained: the report has {counted(report.pieces, 'piece')} in {counted(report.nets, 'net')}"


def cut(rows: List[str], is_all: bool) -> List[str]:
    return rows if is_all or len(rows) <= MOST else [*rows[:MOST], f"{len(rows) - MOST} more lines: --all prints them"]


def quiet(shown: Shown) -> Iterator[str]:
    """A line for the board, and one `file:line: id: words` for each finding, as editors and CI read them."""
    yield quiet_heading(shown)
    yield from (f"{shown.path}: hint: {words}" for words in hint_words(shown))
    if shown.board:
        from .sentences.findings import sentence  # as above

        netlist = shown.board.package.told_path(shown.board.manifest.netlist)
        yield from (f"{shown.path}: {words}" for words in shown.seen.lost_ties())
        for finding in shown.findings:
            place = f"{netlist}:{shown.board.line(finding.points[0])}" if finding.points else shown.path
            yield f"{place}: {doubt(finding)}{finding.id}: {sentence(finding)}"
    for row in bounded(shown):
        yield f"{shown.path}: {row.strip()}"
    for row in extra_lines(shown):
        yield f"{shown.path}: {row.strip()}"


def like_lines(likeness: Any) -> Iterator[str]:
    """The comparison with another board."""
    from .sentences import notes  # few boards have one

    placed = f" ({notes.words(likeness.placed)})" if likeness.placed else ""
    yield notes.words(likeness.said) + placed
    for it in likeness.differences:
        yield f"  {it.name()}: {notes.words(it)}"


def extra_lines(shown: Shown) -> Iterator[str]:
    """What is told of it in lines."""
    if shown.requested.like:
        yield from like_lines(shown.requested.like)
    if shown.requested.tester:
        from .sentences import testers  # few boards have one

        first, *rest = testers.lines(shown.requested.tester)
        yield f"netlist for a tester: {first}"
        yield from (f"  {words}" for words in rest)
