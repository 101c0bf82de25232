"""A finding as a value, and what is known of where to look."""
from typing import Any, Dict, List, NamedTuple, Optional, Sequence, Tuple

from boardnet_show.base.facts import Fact, Lead, NamesJoined, NamesMeet, ShortName
from .nearest_copper import Gap

OPEN, SHORT, MISSING, GAP, CUT, OUTSIDE, NECK = "open", "short", "missing", "gap", "cut", "outside", "neck"
# Why a clue is told: it is where to look, the copper files' labels say it, or it is known.
SUGGESTED, LABELLED, KNOWN = "suggested", "labelled", "known"


class Clue(NamedTuple):
    """Where a finding comes from, and why that is told."""

    why: str
    what: Lead


class Finding(NamedTuple):
    """kind and number are its name for good; `name` is the net name that it is listed under, `what` is so, `clues` say
    where to look.

    `points` are the test points that it speaks of, the first one leads; `nets` those of the copper, `names` those of
    the netlist, by their numbers; `parts` the points on both parts of an open and `gap` their nearest copper, `meets`
    the places where a short's names meet, `sides` the name of each piece on it. Between two bounds `sure` says whether
    both boards have it, else it is None. `places` (x, y, layer) are those of all that parts a net when the board is
    made, `bare` the points that lose their copper.
    """

    kind: str
    number: int
    name: str
    what: Fact
    points: Sequence[int]
    nets: Sequence[int] = ()
    names: Sequence[int] = ()
    clues: Sequence[Clue] = ()
    parts: Sequence[List[int]] = ()
    gap: Optional[Gap] = None
    meets: Sequence[Any] = ()
    sides: Dict[int, str] = {}
    is_labelled: bool = False
    pieces: Sequence[int] = ()
    sure: Optional[bool] = None
    places: Sequence[Tuple[int, int, int]] = ()
    bare: Sequence[int] = ()

    @property
    def id(self) -> str:
        return f"{self.kind}-{self.number}"

    def without_suggestion(self) -> "Finding":
        """The same with what is known alone: not where to look, where something else than the copper is the cause."""
        its = self._replace(clues=[clue for clue in self.clues if clue.why != SUGGESTED], gap=None)
        if self.is_labelled or not isinstance(self.what, (NamesJoined, NamesMeet)):
            return its
        return its._replace(meets=[], sides={}, what=self.what._replace(where=None))


def with_short_names(findings: Sequence[Finding], names: Sequence[str], short: Dict[str, str]) -> Sequence[Finding]:
    """The findings with what the netlist has in the place of whole names that the copper's labels say."""
    if not short:
        return findings
    told = ((it, [names[number] for number in it.names if names[number] in short]) for it in findings)
    return [
        it._replace(clues=[*it.clues, *(Clue(KNOWN, ShortName(short[name], name)) for name in whole)])
        for it, whole in told
    ]


def doubt(finding: Finding) -> str:
    """The word before a finding between two bounds that is not certain."""
    return "undecided " if finding.sure is False else ""
