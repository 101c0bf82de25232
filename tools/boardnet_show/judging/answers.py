"""The answer on a board as a value: how it was judged and what counts. `output.sentences.answers` puts it in words."""
from typing import NamedTuple, Optional, Tuple

from boardnet_show.base.refusals import Advice, Refusal
from boardnet_show.base.statuses import UNJUDGED, Stop

# By the report itself; by two boards between which it lies; no answer on its copper; an answer that says nothing.
EXACT, BETWEEN, STOPPED, NOTHING = "exact", "between", "stopped", "nothing"


class Counts(NamedTuple):
    """How much counts: opens and points without copper, shorts that are no declared ties, and ties that no copper
    makes."""

    opens: int
    shorts: int
    missing: int
    open_ties: int


class Both(NamedTuple):
    """The answers on a lower and an upper board, how many findings are certain and how many not, and whether the
    program takes both as bounds."""

    lower: str
    upper: str
    certain: int
    undecided: int
    is_proved: bool = False


class AskedOn(NamedTuple):
    """What `between` was asked on: the folder, the words behind the command there, and the name of the file with its
    text."""

    folder: str = ""
    words: Tuple[str, ...] = ()
    text: str = ""


class OfFiles(NamedTuple):
    """Whether the program says the same of the files as they came, where copies of them were judged: of those that are
    `read`. Those of `but_for` it has read as their copies; `why` is its line where it takes the copies not."""

    is_proved: bool
    read: Tuple[str, ...] = ()
    but_for: Tuple[str, ...] = ()
    why: str = ""
    asked_on: AskedOn = AskedOn()


class Answer(NamedTuple):
    """`said` is the program's own line, or why the board is not judged; `no_bounds` why there are no bounds of a board
    that is refused, `behind` what else would stop it; `is_trial` whether a trial build said it, which is not proved.

    `found` is what the report has, and `counts` what counts of it where ties are declared or findings waived. `ties` is
    how many declared ties the copper has, None where none is declared; so many things are `declared`, findings
    `waived`, and declarations and waivers `stale`. `stops` is what refuses one of both bounds; `rows` are listed
    below it."""

    status: int
    kind: str
    said: str
    refusal: Optional[Refusal] = None
    counts: Optional[Counts] = None
    ties: Optional[int] = None
    both: Optional[Both] = None
    no_bounds: str = ""
    mends: int = 0
    is_by_own_names: bool = False
    is_trial: bool = False
    advice: Advice = Advice(0, "")
    declared: int = 0
    waived: int = 0
    stale: int = 0
    behind: Tuple[Refusal, ...] = ()
    of_files: Optional[OfFiles] = None
    found: Optional[Counts] = None
    stops: Optional[Refusal] = None
    rows: Tuple[str, ...] = ()

    def is_between(self) -> bool:
        return self.both is not None


def stopped(stop: Stop) -> Answer:
    """The answer on a board that is not judged."""
    return Answer(stop.status, STOPPED, stop.words, rows=stop.rows)


def nothing(why: str) -> Answer:
    """The answer where a yes would say nothing of the board."""
    return Answer(UNJUDGED, NOTHING, why)


def blocked(status: int, refusal: Refusal, bounded: Refusal) -> Answer:
    """The answer on a board whose copper would have bounds, where another refusal truly stops it."""
    return Answer(status, STOPPED, refusal.line(), refusal, behind=(bounded,))


def without_bounds(
    status: int, said: str, refusal: Optional[Refusal], why: str, stops: Optional[Refusal] = None
) -> Answer:
    """The answer on a refused board that has no bounds either."""
    return Answer(status, STOPPED, said, refusal, no_bounds=why, stops=stops)
