"""Hints in words: what was changed, and what `check` says of that copy."""
from boardnet_show.fitting.changes import NowherePlaced
from boardnet_show.fitting.hints import Hint, Rival
from boardnet_show.judging.answers import STOPPED, Answer

from . import answers, changes, verdicts

SAYS = {0: "the board passes", 1: "the board fails", 11: "the board is undecided"}


def answer_words(answer: Answer) -> str:
    """What is said of a copy that was tried."""
    if answer.kind == STOPPED or answer.status not in SAYS:
        return f"the board is not judged: {verdicts.counted_words(answer, 0, ()).rstrip('.')}"
    return SAYS[answer.status] + (
        f": {verdicts.on_netlist(answer, 0)}" if answer.status else answers.conditions(answer)
    )


def change_words(hint: Hint) -> str:
    """What was changed, with the setting of the tool that would make it so."""
    if isinstance(hint.change, NowherePlaced):
        return (
            "no placement fits: of the units, mirrors, turns and origins with most votes the best leaves"
            f" {hint.change.missing} of {hint.change.points} test points without copper; is the netlist of another"
            " board? Of the best"
        )
    return f"{'besides, ' if hint.is_besides else ''}with {changes.words(hint.change)}{hint.setting},"


def rival_words(rival: Rival) -> str:
    """What fits about as well."""
    its = f"; with {changes.words(rival.change)}, which fits about as well, "
    its += answer_words(rival.answer) if rival.answer else "it was not tried"
    return its + ": which is right is not known"


def words(hint: Hint) -> str:
    return f"{change_words(hint)} {answer_words(hint.answer)}" + (rival_words(hint.rival) if hint.rival else "")
