"""The findings as JUnit's XML: a suite a board, a case a net name, which fails where a finding is listed under it."""
from typing import Dict, List, NamedTuple, Sequence, Tuple

from boardnet_show.base.wording import printable
from boardnet_show.findings import besides
from boardnet_show.findings.finding import doubt

from .causes import of_beside
from .markup import escaped, for_xml
from .sentences import declarations
from .sentences.findings import sentence
from .shown import Shown


def quoted(text: str) -> str:
    """A text as the value of an attribute, in the quotes that it has not."""
    told = escaped(text).replace("\n", "&#10;").replace("\r", "&#13;").replace("\t", "&#9;")
    return (
        f'"{told}"' if '"' not in told else f"'{told}'" if "'" not in told else '"' + told.replace('"', "&quot;") + '"'
    )


class Case(NamedTuple):
    """A case, with what is amiss: names with their words; `word` is XML's for it. What is waived of it is no cause."""

    name: str
    causes: Sequence[Tuple[str, str]]
    word: str = "failure"
    waived: Sequence[str] = ()

    def row(self, title: str) -> str:
        head = f"  <testcase classname={quoted(title)} name={quoted(self.name)}"
        if not self.causes and self.waived:
            return f"{head}><skipped message={quoted('; '.join(map(printable, self.waived)))}/></testcase>"
        if not self.causes:
            return head + "/>"
        told = "\n".join(escaped(printable(f"{name}: {words}")) for name, words in self.causes)
        message = quoted(", ".join(dict.fromkeys(name for name, _ in self.causes)))
        return f"{head}><{self.word} message={message}>{told}</{self.word}></testcase>"


def whole(shown: Shown, status: int, line: str) -> Case:
    """The one case of a board whose names are not told one by one: it passes, fails or is an error as the board's
    status says."""
    return Case("check", [(line, line)] if status else [], "failure" if status == 1 else "error")


def of_names(shown: Shown) -> List[Case]:
    """A case for each net name, and one for ties that have no place."""
    failures: Dict[int, List[Tuple[str, str]]] = {}
    waived: Dict[int, List[str]] = {}
    for it in shown.seen.findings:
        for name in it.names:
            failures.setdefault(name, []).append((doubt(it) + it.id, sentence(it)))
    nowhere = [("tie", words) for words in shown.seen.lost_ties()]
    for each in shown.seen.waived:
        for name in each.finding.names:
            waived.setdefault(name, []).append(declarations.waived_words(each))
    cases = [
        Case(name, failures.get(number, []), waived=tuple(waived.get(number, ())))
        for number, name in enumerate(shown.board.report.names)
    ]
    return cases + ([Case("ties", nowhere)] if nowhere else [])


def waived_of(shown: Shown, what: str) -> List[str]:
    """What is waived of things that were looked for besides."""
    kinds = besides.KINDS.get(what, ())
    return [declarations.waived_words(it) for it in shown.seen.waived if it.finding.kind in kinds]


def cases_of(shown: Shown) -> List[Case]:
    """All cases: no status but 0 is without one that fails or is an error."""
    status = shown.answer.status
    cases = of_names(shown) if shown.board and status in (0, 1) else [whole(shown, status, shown.netlist_sentence)]
    cases += [
        Case(it.what, list(of_beside(it)), "failure" if it.status == 1 else "error", waived_of(shown, it.what))
        for it in shown.besides
    ]
    return (
        cases
        if not shown.status or any(it.causes for it in cases)
        else [*cases, whole(shown, shown.status, shown.sentence())]
    )


def suite(shown: Shown) -> List[str]:
    cases = cases_of(shown)
    failed, errors = (sum(bool(it.causes) and it.word == word for it in cases) for word in ("failure", "error"))
    skipped = sum(not it.causes and bool(it.waived) for it in cases)
    told = f' skipped="{skipped}"' if skipped else ""
    head = f'<testsuite name={quoted(shown.title)} tests="{len(cases)}" failures="{failed}" errors="{errors}"{told}>'
    return [head, *(it.row(shown.title) for it in cases), "</testsuite>"]


def junit_text(all_shown: Sequence[Shown]) -> str:
    rows = [row for shown in all_shown for row in suite(shown)]
    return for_xml("\n".join(['<?xml version="1.0" encoding="UTF-8"?>', "<testsuites>", *rows, "</testsuites>", ""]))
