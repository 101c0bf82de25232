"""What is told of a board beside its answer and its findings, in words: what was made of its files first, and, where it
is asked for, the answer in the words of the program and of the rules."""
from typing import Any, Dict, Iterable, Iterator, List

from boardnet_show.base import refusals as program_lines
from boardnet_show.base.wording import spoken
from boardnet_show.findings.explained import Explained
from boardnet_show.judging.answers import Answer

from . import answers


def declared(seen: Explained) -> List[str]:
    """What is declared of the board, and what is waived."""
    if not (seen.declared or seen.waived or seen.stale):
        return []
    from . import declarations  # most boards have none, and loading takes longer than a small board

    return declarations.notes(seen)


def written_out(names: Iterable[str]) -> List[str]:
    """A note on files with macros of which copies were judged."""
    names = list(names)
    its = "its" if len(names) == 1 else "their"
    return (
        [f"{spoken(names)}: {its} aperture macros were written out as areas in a copy, which --keep keeps"]
        if names
        else []
    )


def not_written_out(lines: Dict[str, str]) -> Iterator[str]:
    """One note of all files with macros of which that could not be, by the program's line on each, with the first one's
    reason."""
    for line in [*lines.values()][:1]:
        from . import refusals  # as above

        refusal, rest = program_lines.of_line(line), [*lines][1:]
        why = refusals.refused(refusal) if refusal else refusals.of_line(line)
        more = f"; nor could those of {spoken(rest)}" if rest else ""
        yield f"aperture macros could not be written out: {why}{more}"


def of_files(seen: Explained) -> List[str]:
    """What was made of the files first."""
    return [
        *(f"mended: {it.words}" for it in seen.mends),
        *written_out(seen.flattened),
        *not_written_out(seen.unflattened),
    ]


def all_of(seen: Explained) -> List[Any]:
    """All notes, those of `seen` as values."""
    return [*declared(seen), *of_files(seen), *seen.notes]


def in_rules_words(answer: Answer, line: str, seen: Explained) -> Iterator[str]:
    """The answer in the words of the program and of the rules, and what it is of."""
    yield f"the answer in the words of the rules: {line}" + (f" ({seen.audit})" if seen.audit else "")
    if answer.both:
        yield answers.bounds_words(answer.both)
    yield from (f"not flattened: {line}" for line in seen.unflattened.values())
    if seen.bounds:
        yield from (f"left out of the lower bound: {words}" for words in seen.bounds.left_out)
