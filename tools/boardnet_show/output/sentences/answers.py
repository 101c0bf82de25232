"""An answer in the words of the program and of the rules, in one line: what `-q`, JSON and a record have, and
`--explain` tells. `verdicts` says the same for people."""
from typing import Iterable, List

from boardnet_show.base.refusals import Refusal
from boardnet_show.base.statuses import UNDECIDED, UNJUDGED
from boardnet_show.base.wording import counted, spoken
from boardnet_show.judging.answers import BETWEEN, Answer, Both, Counts

OWN_NAMES = "by the copper's own names, so that only opens and shorts against those are known: "
NOTHING = "NOTHING WAS JUDGED: "
TRIAL = "NOT PROVED YET (trial build): "
WORDS = {0: "agrees", 1: "differs", UNDECIDED: "undecided"}


def counts_words(counts: Counts, has_ties: bool) -> str:
    if not any(counts):
        return "agrees"
    rows = list(zip(Counts._fields, counts))[: 4 if has_ties else 3]
    return "differs, " + ", ".join(f"{name.replace('_', ' ')} {count}" for name, count in rows)


def found_words(both: Both) -> str:
    """How many findings are certain and how many not."""
    rows = ((both.certain, "certain"), (both.undecided, "undecided"))
    found = ", ".join(f"{counted(count, 'finding')} {word}" for count, word in rows if count)
    return f": {found}" if found else ""


def bounds_words(both: Both) -> str:
    """The answers on both boards, for who asks for all."""
    return f"bounds: lower {both.lower}; upper {both.upper}"


def conditions(answer: Answer) -> str:
    """What an answer stands on, behind its first word."""
    its: List[str] = []
    if answer.declared:
        its.append(counted(answer.declared, "declaration"))
    if answer.ties is not None:
        its.append(counted(answer.ties, "declared tie"))
    if answer.waived:
        its.append(counted(answer.waived, "waiver"))
    if answer.stale:
        its.append(f"{answer.stale} of what is declared stale")
    return f", with {spoken_list(its)}" if its else ""


def spoken_list(words: List[str]) -> str:
    return words[0] if len(words) == 1 else ", ".join(words[:-1]) + " and " + words[-1]


def bare_line(answer: Answer) -> str:
    """The answer by what the program says, before what was made of the files first is told."""
    if answer.kind == BETWEEN and answer.both:
        # What is waived is a finding to the program, which so does not say that the board agrees.
        proved = ", proved" if answer.both.is_proved and not answer.waived else ""
        return f"{WORDS[answer.status]}{conditions(answer)}, between two bounds{proved}{found_words(answer.both)}"
    if answer.counts:
        return (
            f"{counts_words(answer.counts, answer.ties is not None)}{conditions(answer)}; the report itself says:"
            f" {answer.said}"
        )
    return (NOTHING if answer.status == UNJUDGED else "") + answer.said + conditions(answer)


def files_words(answer: Answer) -> str:
    """That the answer is proved of the files as they came, where copies were judged."""
    its = answer.of_files
    if not its or not its.is_proved or not its.read or not answer.mends:
        return ""
    return ", proved of the files as they came" + (f" but for {spoken(its.but_for)}" if its.but_for else "")


def behind_words(refusal: Refusal) -> str:
    """What else would stop a board, and whether bounds have an answer for it."""
    return refusal.line() + (", which has bounds" if refusal.has_bounds() else "")


def line(answer: Answer) -> str:
    """The answer on the netlist."""
    text = "; ".join([bare_line(answer), *answer.rows]) + (
        f"; no bounds: {answer.no_bounds}" if answer.no_bounds else ""
    )
    if answer.mends and answer.status != UNJUDGED:
        text += f", after {counted(answer.mends, 'mend')}{files_words(answer)}"
    if answer.advice.line and answer.refusal:
        text += f"; line {answer.advice.line} of {answer.refusal.file}"
    if answer.advice.export:
        text += f"; to export: {answer.advice.export}"
    if answer.behind:
        text += "; behind that: " + ", ".join(map(behind_words, answer.behind))
    return (TRIAL if answer.is_trial else "") + (OWN_NAMES if answer.is_by_own_names else "") + text


def whole_line(answer: Answer, besides: Iterable[str]) -> str:
    """The same with what was asked for besides."""
    return "; ".join([line(answer), *besides])
