"""The findings in the Static Analysis Results Interchange Format, version 2.1.0 (OASIS): a run, with a result for
each cause."""
import os
from typing import Any, Dict, Sequence
from urllib.parse import quote

from boardnet_show.base.statuses import UNDECIDED
from boardnet_show.findings.waivers import Waived
from boardnet_show.formats import indented_json
from boardnet_show.judging.program import TOOLS

from .causes import KINDS, Cause, causes_of, of_findings_of
from .sentences import declarations
from .shown import Shown

SCHEMA = "https://json.schemastore.org/sarif-2.1.0.json"


def release() -> str:
    """The release of the tools, where they say it: in a checkout a file of its own, installed the first line of
    another."""
    for name in ("release", "version"):
        path = os.path.join(TOOLS, name)
        if os.path.isfile(path):
            with open(path, encoding="utf-8") as file:
                return file.readline().split()[-1]
    return "unknown"


def result(shown: Shown, cause: Cause) -> Dict[str, Any]:
    """One cause, at the line of the netlist, or at the package where it is about the board as a whole."""
    place: Dict[str, Any] = {"artifactLocation": {"uri": quote(cause.file or shown.path)}}
    if cause.file:
        place["region"] = {"startLine": max(cause.line, 1)}
    return {
        "ruleId": cause.kind,
        "level": "error" if cause.is_certain else "warning",
        "message": {"text": f"{cause.name}: {cause.words}"},
        "locations": [{"physicalLocation": place}],
    }


def suppressed(shown: Shown, waived: Waived) -> Dict[str, Any]:
    """A finding that is waived, as a result that somebody has accepted."""
    its = result(shown, next(of_findings_of(shown, [waived.finding])))
    return {
        **its,
        "suppressions": [
            {"kind": "external", "status": "accepted", "justification": declarations.signed(waived.waiver)}
        ],
    }


def sarif_text(all_shown: Sequence[Shown]) -> str:
    rules = [{"id": kind, "shortDescription": {"text": words}} for kind, words in KINDS.items()]
    driver = {"name": "boardnet", "version": release(), "rules": rules}
    results = [result(shown, cause) for shown in all_shown for cause in causes_of(shown)]
    results += [suppressed(shown, it) for shown in all_shown for it in shown.seen.waived]
    # A board that was not judged has no result that says so by its absence.
    is_whole = all(shown.status in (0, 1, UNDECIDED) for shown in all_shown)
    run = {"tool": {"driver": driver}, "invocations": [{"executionSuccessful": is_whole}], "results": results}
    return indented_json.indented({"$schema": SCHEMA, "version": "2.1.0", "runs": [run]}) + "\n"
