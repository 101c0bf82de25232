"""Each cause of a status that is not 0, with the line of the file that it is about: what annotations and SARIF say."""
from typing import Iterator, NamedTuple, Optional, Sequence, Tuple

from boardnet_show.base.statuses import UNDECIDED
from boardnet_show.findings.besides import Beside
from boardnet_show.findings.finding import Finding, doubt

from .sentences.findings import sentence
from .shown import Shown, in_words
from .text_lines import summary

# What each kind of cause is, in a sentence.
KINDS = {
    "open": "Test points of one net name that no copper joins",
    "short": "Net names that copper joins",
    "missing": "Test points without copper",
    "gap": "Nets whose copper is too close",
    "cut": "Nets that unplated holes part, or test points whose copper they take, when the board is made",
    "outside": "Test points and joins outside the board's edge",
    "neck": "Joins that are narrower than asked for",
    "tie": "Declared ties of names that no test point has",
    "beside": "What was asked for besides the netlist",
    "board": "Why the board is not judged",
}


class Cause(NamedTuple):
    """What is amiss: its kind, its name among the findings, what is told, whether it is certain, and the line of the
    netlist; the file is None where it is about the board as a whole, the line then 0."""

    kind: str
    name: str
    words: str
    is_certain: bool
    file: Optional[str] = None
    line: int = 0


def of_beside(beside: Beside) -> Iterator[Tuple[str, str]]:
    """Why the status of what was asked for besides is not 0: names and words."""
    if beside.status and beside.findings:
        yield from ((doubt(it) + it.id, sentence(it)) for it in beside.findings)
    else:
        yield from ((name, in_words([what])[0]) for name, what, _ in beside.causes())


def of_findings_of(shown: Shown, findings: Sequence[Finding]) -> Iterator[Cause]:
    netlist = shown.board.package.told_path(shown.board.manifest.netlist)
    for finding in findings:
        place = (netlist, shown.board.line(finding.points[0])) if finding.points else (None, 0)
        yield Cause(finding.kind, doubt(finding) + finding.id, sentence(finding), finding.sure is not False, *place)


def of_findings(shown: Shown) -> Iterator[Cause]:
    yield from of_findings_of(shown, shown.findings)
    for words in shown.seen.lost_ties():
        yield Cause("tie", "tie", words, True)


def causes_of(shown: Shown) -> Iterator[Cause]:
    """All of one board; where nothing else says why, its own line does."""
    found = list(of_findings(shown)) if shown.board else []
    for beside in shown.besides:
        if not beside.findings:
            found += [Cause("beside", name, words, beside.status != UNDECIDED) for name, words in of_beside(beside)]
    if shown.status and (not found or shown.status not in (1, UNDECIDED)):
        found.append(Cause("board", "board", summary(shown), shown.status != UNDECIDED))
    yield from found
