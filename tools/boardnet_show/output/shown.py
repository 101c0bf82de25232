"""What all forms are made of: a board, what is known of it, and what was asked for besides."""
from typing import TYPE_CHECKING, Any, Dict, List, NamedTuple, Optional, Sequence, Tuple

from boardnet_show.findings.besides import Beside, Requested, status_with
from boardnet_show.findings.explained import Explained
from boardnet_show.findings.finding import Finding
from boardnet_show.judging.answers import Answer
from boardnet_show.judging.both_reports import BothFind

from .sentences import answers, made_first, verdicts

if TYPE_CHECKING:  # most boards have no bounds, and loading takes longer than a small board
    from boardnet_show.judging.two_bounds import Bounded


def in_words(notes: Sequence[Any]) -> List[str]:
    """Notes as they are told; those that are texts already want no module for it."""
    if all(isinstance(it, str) for it in notes):
        return list(notes)
    from .sentences import notes as sentences  # most boards have none, and loading takes longer than a small board

    return list(map(sentences.words, notes))


class Shown(NamedTuple):
    """What is told of one PATH."""

    path: str
    seen: Explained
    requested: Requested = Requested()

    @property
    def title(self) -> str:
        return self.seen.title

    @property
    def answer(self) -> Answer:
        return self.seen.answer

    @property
    def status(self) -> int:
        return status_with(self.answer.status, self.requested.besides)

    @property
    def line(self) -> str:
        """The answer in the words of the rules, with what was asked for besides."""
        return answers.whole_line(self.answer, in_words([it.said for it in self.besides]))

    @property
    def word(self) -> str:
        """PASS, FAIL or what it is."""
        return verdicts.word_of(self.answer, self.status)

    @property
    def rewritten(self) -> List[str]:
        """The files in whose place copies were judged."""
        return list(dict.fromkeys([*(it.file for it in self.seen.mends), *self.seen.flattened]))

    @property
    def verdict(self) -> str:
        """What a person reads behind that word and the board's name."""
        return verdicts.words(self.answer, self.points, self.rewritten, self.asked_besides)

    @property
    def asked_besides(self) -> List[Tuple[int, str]]:
        """What was asked for besides: how each ended, and its words."""
        return list(zip((it.status for it in self.besides), in_words([it.said for it in self.besides])))

    def sentence(self, name: str = "") -> str:
        """Both, with a name between them; of a trial build behind the word that says so."""
        return f"{verdicts.before(self.answer)}{self.word}{' ' + name if name else ''}: {self.verdict}"

    @property
    def netlist_sentence(self) -> str:
        """What is told of the netlist alone."""
        return verdicts.before(self.answer) + verdicts.words(self.answer, self.points, self.rewritten, ())

    @property
    def brief(self) -> str:
        """What counts alone."""
        return (
            f"{verdicts.before(self.answer)}{self.word}:"
            f" {verdicts.counted_words(self.answer, self.points, self.asked_besides)}"
        )

    @property
    def points(self) -> int:
        """How many test points there are, 0 where that is not known."""
        return len(self.board.report.points) if self.board else 0

    @property
    def board(self) -> Any:
        """The board, or None where nothing was judged."""
        return self.seen.board

    @property
    def findings(self) -> List[Finding]:
        return [*self.seen.findings, *self.requested.findings]

    @property
    def hints(self) -> Sequence[Any]:
        return self.seen.hints

    @property
    def notes(self) -> List[str]:
        """All that is told beside the answer."""
        return in_words([*made_first.all_of(self.seen), *self.requested.notes])

    @property
    def first_notes(self) -> List[str]:
        """The same without what was made of the files, of which the answer has a clause."""
        return in_words([*made_first.declared(self.seen), *self.seen.notes, *self.requested.notes])

    def in_rules_words(self) -> List[str]:
        """The answer in the words of the program and of the rules."""
        return list(made_first.in_rules_words(self.answer, self.line, self.seen))

    @property
    def bounds(self) -> "Optional[Bounded]":
        """The answer between two boards, with what was looked for besides."""
        bounds = self.seen.bounds
        if not bounds or not self.requested.findings:
            return bounds
        more = [
            BothFind(it.kind, it.sure is not False, it.what, self.places(it), it.points)
            for it in self.requested.findings
        ]
        return bounds._replace(findings=[*bounds.findings, *more])

    def places(self, finding: Finding) -> List[Tuple[int, int, int]]:
        """Where a finding is, by its gap or by its test points."""
        if finding.gap:
            x, y = finding.gap.place
            return [(x, y, finding.gap.layer)]
        spots = [(self.board.spot(point), self.board.layer(point)) for point in finding.points] if self.board else []
        return [(x, y, layer) for (x, y), layer in spots]

    @property
    def besides(self) -> Sequence[Beside]:
        return self.requested.besides

    def found_counts(self) -> Dict[str, int]:
        """How many findings are certain, and how many are undecided."""
        return dict(zip(("certain", "undecided"), self.seen.sure()))
