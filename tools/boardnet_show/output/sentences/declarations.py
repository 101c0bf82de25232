"""What is declared of a board, in words, and the findings that are waived."""
from typing import List

from boardnet_show.base.wording import spoken
from boardnet_show.findings.explained import Explained
from boardnet_show.findings.finding import doubt
from boardnet_show.findings.waivers import Waived, Waiver
from boardnet_show.fitting.changes import CodesRead
from boardnet_show.fitting.declared_changes import Declaration
from boardnet_show.intake.package import Drilled, Taken

from . import changes
from .findings import heading


def what_words(declared: Declaration) -> str:
    what = declared.what
    if isinstance(what, Taken):
        return f"{what.file} {what.what}" if what.what.startswith(("as ", "with ")) else f"{what.file} as {what.what}"
    if isinstance(what, Drilled):
        return f"{what.file} as plated holes from layer {what.first} to {what.last}"
    if isinstance(what, CodesRead) and not what.records:
        return f"access codes read by the rule `{what.rule}`"
    return changes.words(what)


def words(declared: Declaration) -> str:
    """One declaration, with where it is from and what became of it."""
    became = (
        ", made of these files before"
        if declared.was_made
        else ", stale: it changes nothing of these files"
        if declared.is_stale
        else ""
    )
    return f"{what_words(declared)} ({declared.source}{became})"


def signed(waiver: Waiver) -> str:
    return f"waived by {waiver.author} on {waiver.date}: {waiver.reason}"


def waived_words(waived: Waived) -> str:
    finding = waived.finding
    return f"{doubt(finding)}{finding.id} of {heading(finding)}, {signed(waived.waiver)}"


def stale_words(waiver: Waiver) -> str:
    return (
        f"the waiver of the {waiver.kind} of {spoken(waiver.names)} is stale, since there is no such finding alone"
        f" ({signed(waiver)})"
    )


def notes(seen: Explained) -> List[str]:
    """All that is declared."""
    return [
        *(f"declared: {words(it)}" for it in seen.declared),
        *map(waived_words, seen.waived),
        *map(stale_words, seen.stale),
    ]
