"""The answer as one line that a person reads aloud: PASS, FAIL or what it is, what counts, how sure that is, and what
was made of the files first. The words of the program and of the rules stand with `--explain` and in JSON
(`answers`)."""
from typing import List, Sequence, Tuple

from boardnet_show.base.statuses import UNDECIDED, UNJUDGED
from boardnet_show.base.wording import counted, spoken
from boardnet_show.judging.answers import BETWEEN, NOTHING, STOPPED, Answer, Both

from . import answers

PASS, FAIL, OPEN_ANSWER, INCOMPLETE, NOT_JUDGED = "PASS", "FAIL", "UNDECIDED", "INCOMPLETE", "NOT JUDGED"
WORDS = {0: PASS, 1: FAIL, UNDECIDED: OPEN_ANSWER}
# What becomes of boards, one and several.
PLURALS = {
    PASS: ("passes", "pass"),
    FAIL: ("fails", "fail"),
    OPEN_ANSWER: ("is undecided", "are undecided"),
    INCOMPLETE: ("is incomplete", "are incomplete"),
    NOT_JUDGED: ("is not judged", "are not judged"),
}
FAULTS = (
    ("open", "opens"),
    ("short", "shorts"),
    ("test point without copper", "test points without copper"),
    ("declared tie that no copper makes", "declared ties that no copper makes"),
)
FEW = 3  # files that are named

OWN_NAMES = "there is no netlist, so the names of its own pads alone are asked: "
ALL_COPPER = "the same for the least and the most copper that the files can mean"
EXACT_COPPER = "the copper is known exactly, and an audit confirms the answer"
PROVED = f"{ALL_COPPER}, by proof"
TESTED = f"{ALL_COPPER}; that these two are so is tested, not proved"
NOT_KNOWN = (
    "The copper there is not known closely enough: the least that the files can mean says otherwise than the most."
)


def word_of(answer: Answer, status: int) -> str:
    """What became of a board, by its status with all that was asked for: INCOMPLETE where the netlist has an answer,
    and something else that was asked for has none."""
    return INCOMPLETE if status == UNJUDGED and answer.status == 0 else WORDS.get(status, NOT_JUDGED)


def before(answer: Answer) -> str:
    """What stands before all where a trial build says it."""
    return answers.TRIAL if answer.is_trial else ""


def faults(counts: Sequence[int]) -> List[str]:
    """How many there are of each kind, those that there are."""
    return [counted(count, *words) for count, words in zip(counts, FAULTS) if count]


def between_words(both: Both) -> str:
    """The same of a board whose copper is not known exactly."""
    certain = f"{counted(both.certain, 'fault')} {is_or_are(both.certain)} certain" if both.certain else ""
    possible = counted(both.undecided, "fault") if not both.certain else str(both.undecided)
    rows = [certain, f"{possible} {is_or_are(both.undecided)} possible" if both.undecided else ""]
    return ", ".join(filter(None, rows))


def is_or_are(number: int) -> str:
    return "is" if number == 1 else "are"


def agreeing(answer: Answer, points: int) -> str:
    """What a yes says."""
    names = "their own names" if answer.is_by_own_names else "the netlist"
    at = f" at {'all ' if points > 1 else ''}{counted(points, 'test point')}" if points else ""
    return f"copper and {names} agree{at}" + (", but for what is signed for" if answer.waived else "")


def on_netlist(answer: Answer, points: int) -> str:
    """What counts, by the netlist alone."""
    if answer.status == 0:
        return agreeing(answer, points) + answers.conditions(answer)
    if answer.kind == BETWEEN and answer.both:
        return between_words(answer.both) + answers.conditions(answer)
    counts = answer.counts or answer.found
    return spoken(faults(counts)) + answers.conditions(answer) if counts else answer.said


def how_sure(answer: Answer, has_more: bool) -> str:
    """How sure the answer on the netlist is, where there is more than that."""
    if answer.is_trial:
        return ""
    if answer.status == UNDECIDED:
        return NOT_KNOWN
    both = answer.both if answer.kind == BETWEEN else None
    why = EXACT_COPPER if not both else PROVED if both.is_proved else TESTED
    return f"{'Of the netlist certain' if has_more else 'Certain'}: {why}."


def copies(answer: Answer, names: Sequence[str]) -> str:
    """What was done to the files, and how sure it is that these say the same."""
    if not names:
        return ""
    which = spoken(names) if len(names) <= FEW else f"{len(names)} files"
    told = (
        f"Judged on {'a copy' if len(names) == 1 else 'copies'} of {which}, rewritten to say the same in simpler words"
    )
    its = answer.of_files
    if not its or not its.is_proved or not its.read:
        return f"{told}."
    return f"{told}; it is proved of the files as they came{f', but for {spoken(its.but_for)}' if its.but_for else ''}."


def stopped(answer: Answer) -> str:
    """Why a board is not judged."""
    from . import refusals  # few boards are refused

    return refusals.stopped(answer)


def counted_words(answer: Answer, points: int, besides: Sequence[Tuple[int, str]]) -> str:
    """What counts, with what was asked for besides; that goes first where it alone is amiss."""
    if answer.kind in (STOPPED, NOTHING):
        why = stopped(answer) if answer.kind == STOPPED else f"{answer.said}."
        return why + (f" Besides: {'; '.join(words for _, words in besides)}." if besides else "")
    amiss, right = ([words for status, words in besides if bool(status) is it] for it in (True, False))
    its = on_netlist(answer, points)
    told = [*amiss, its, *right] if answer.status == 0 else [its, *amiss, *right]
    return (OWN_NAMES if answer.is_by_own_names else "") + "; ".join(told) + "."


def words(answer: Answer, points: int, rewritten: Sequence[str], besides: Sequence[Tuple[int, str]]) -> str:
    """The line behind its first word and the board's name."""
    told = [counted_words(answer, points, besides)]
    if answer.kind not in (STOPPED, NOTHING):
        told += [how_sure(answer, bool(besides)), copies(answer, rewritten)]
    return " ".join(filter(None, told))
