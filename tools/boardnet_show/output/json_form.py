"""The findings as JSON (docs/using/forms.md, "The JSON form"). Lengths are millimetres, exact."""
from typing import Any, Dict, Iterator, List, Sequence, Tuple

from boardnet_show.findings.board import Board
from boardnet_show.findings.finding import GAP, NECK, Finding
from boardnet_show.findings.meeting_places import Meet
from boardnet_show.findings.waivers import Waived
from boardnet_show.fitting import declaration_file
from boardnet_show.fitting.declared_changes import Declaration
from boardnet_show.fitting.hints import Hint
from boardnet_show.formats import indented_json
from boardnet_show.formats.ipc356 import NO_NET
from boardnet_show.intake.package import Drilled, Taken
from boardnet_show.judging import net_ties

from .sentences import answers, declarations, findings, hints, notes, testers
from .shown import Shown

Place = Tuple[int, int]
FORM = 3
# As many points of a part of an open are told.
MOST_OF_A_PART = 12


def mm(u: int) -> float:
    """A number whose decimal text is exact: u has at most eleven digits."""
    return u / 10_000_000


def place_object(spot: Place, layer: int) -> Dict[str, Any]:
    x, y = map(mm, spot)
    return {"x": x, "y": y, "layer": layer}


def point(board: Board, number: int) -> Dict[str, Any]:
    record, layer, name, net = board.report.points[number]
    found = board.record(number)
    return {
        "point": number,
        "record": record,
        "line": board.line(number),
        "component": found.component if found else "",
        "pin": found.pin if found else "",
        "name": board.name(name),
        "net": net if net >= 0 else None,
        **place_object(board.spot(number), layer),
    }


def piece(board: Board, number: int) -> Dict[str, Any]:
    file, _, _, top, bottom = board.report.sources[number]
    word, came = "line" if board.manifest.is_drilled(file) else "command", board.came(number)
    return {
        "piece": number,
        "file": board.manifest.files[file],
        **({word: came[0], "copy": came[1]} if came else {}),
        "top": top,
        "bottom": bottom,
        **({"label": board.labels[number]} if number in board.labels else {}),
    }


def meet(board: Board, found: Meet) -> Dict[str, Any]:
    one, other = found.names
    pieces = [
        {**piece(board, number), "of": one if at <= found.near else other if at >= found.far else None}
        for at, number in enumerate(found.chain)
    ]
    return {
        "names": list(found.names),
        **place_object(found.place, found.layer),
        "touch": [piece(board, number) for number in found.touch],
        "between": [piece(board, number) for number in found.between],
        "path": pieces,
    }


def finding(board: Board, one: Finding) -> Dict[str, Any]:
    told: Dict[str, Any] = {
        "id": one.id,
        "kind": one.kind,
        "names": [board.name(name) for name in one.names],
        "words": findings.words(one),
        "hints": findings.hints(one),
        "points": [point(board, number) for number in one.points],
        "nets": one.nets,
    }
    if one.parts:
        told["parts"] = [
            {"count": len(part), "points": [point(board, number) for number in part[:MOST_OF_A_PART]]}
            for part in one.parts
        ]
    if one.gap:
        told["gap"] = {
            "distance": round(mm(max(one.gap.distance, 0)), 6),
            **place_object(one.gap.place, one.gap.layer),
            "below": one.gap.below,
        }
    if one.kind in (GAP, NECK):
        told["pieces"] = [piece(board, number) for number in one.pieces]
    if one.sure is not None:
        told["sure"] = one.sure
    if one.kind == "short":
        told["labelled"], told["meets"] = one.is_labelled, [meet(board, found) for found in one.meets]
    return told


def absent_ties(shown: Shown) -> Iterator[Dict[str, Any]]:
    """The ties of names that no test point has, as findings without a place."""
    for number, (it, words) in enumerate(net_ties.absent(shown.seen.ties, shown.board.report)):
        yield {
            "id": f"tie-{number}",
            "kind": "tie",
            "names": list(it.names),
            "words": words,
            "hints": [],
            "points": [],
            "nets": [],
            **({"sure": True} if shown.bounds else {}),
        }


def like_of(likeness: Any) -> Dict[str, Any]:
    """The comparison with another board."""

    def places(its: Sequence[Tuple[int, int, int]]) -> List[Dict[str, Any]]:
        return [place_object((x, y), layer) for x, y, layer in its]

    differences = [
        {
            "id": each.id,
            "kind": each.kind,
            "sure": each.sure,
            "words": notes.here_words(each),
            "there": notes.there_words(each.there),
            "places": places(each.places),
            "places_there": places(each.places_there),
        }
        for each in likeness.differences
    ]
    return {
        "path": likeness.path,
        "status": likeness.status,
        "line": notes.likened_line(likeness.said),
        "placed": notes.other_placed(likeness.placed) if likeness.placed else "",
        "not_compared": likeness.said.untouched,
        "differences": differences,
    }


def declaration(declared: Declaration) -> Dict[str, Any]:
    """What is declared, as the file has it, in words, and what became of it."""
    what = declared.what
    if isinstance(what, Taken):
        values: Dict[str, Any] = {"file": what.file, "as": what.what}
    elif isinstance(what, Drilled):
        values = {"of": "plated", "file": what.file, "from": what.first, "to": what.last}
    else:
        values = declaration_file.change_values(what)
    return {
        **values,
        "words": declarations.what_words(declared),
        "source": declared.source,
        "stale": declared.is_stale,
        "made_before": declared.was_made,
    }


def signed(board: Board, waived: Waived) -> Dict[str, Any]:
    """A finding that is waived, with its waiver."""
    return {**finding(board, waived.finding), "waiver": declaration_file.waiver_values(waived.waiver)}


def hint_of(hint: Hint) -> Dict[str, Any]:
    return {
        "kind": hint.kind,
        "words": hints.words(hint),
        "answer_status": hint.answer.status,
        "answer_line": answers.bare_line(hint.answer),
        "explains": hint.explains,
    }


def bounds_of(shown: Shown) -> Dict[str, Any]:
    """What a board between two has beside the lower one's findings."""
    if not shown.bounds:
        return {}
    both_find = [
        {
            "kind": it.kind,
            "sure": it.is_sure,
            "words": findings.statement(it.what),
            "places": [place_object((x, y), layer) for x, y, layer in it.places],
        }
        for it in shown.bounds.findings
    ]
    both = shown.answer.both
    lines = {"lower": both.lower, "upper": both.upper} if both else {}
    return {"bounds": {"findings": both_find, "left_out": list(shown.bounds.left_out), **lines}}


def files_of(shown: Shown) -> Dict[str, Any]:
    """Whether the program says the same of the files as they came."""
    its = shown.answer.of_files
    if not its:
        return {}
    told = {"proved": its.is_proved, "read": list(its.read), "but_for": list(its.but_for), "why": its.why}
    return {"files_as_they_came": told}


def besides_of(shown: Shown) -> Dict[str, Any]:
    """What was asked for besides."""
    its = shown.requested
    told: Dict[str, Any] = {}
    if its.gap_count is not None:
        told["gaps"] = its.gap_count
    if its.like:
        told["like"] = like_of(its.like)
    if its.tester:
        told["tester"] = {"written": its.tester.text is not None, "lines": testers.lines(its.tester)}
    return told


def judged_of(shown: Shown) -> Dict[str, Any]:
    """What is told of a board that was judged."""
    board, seen = shown.board, shown.seen
    unnamed = sum(board.name(name) == NO_NET for _, _, name, _ in board.report.points)
    return {
        "audit": seen.audit,
        "copper": board.manifest.copper,
        "drills": [name for name, _, _ in board.manifest.drills],
        "netlist": board.manifest.netlist,
        "own_names": bool(board.package.own),
        "ties": list(net_ties.told_of(board.ties, board.report)),
        "pieces": board.report.pieces,
        "points": len(board.report.points),
        "unnamed_points": unnamed,
        **seen.counts()._asdict(),
        **shown.found_counts(),
        "flood": findings.flood_words(seen.flood) if seen.flood else "",
        "waived": [signed(board, it) for it in seen.waived],
        "findings": [*(finding(board, it) for it in shown.findings), *absent_ties(shown)],
    }


def board_of(shown: Shown) -> Dict[str, Any]:
    """One board."""
    seen = shown.seen
    told = {
        "path": shown.path,
        "status": shown.status,
        "line": shown.line,
        "verdict": shown.sentence(),
        "notes": shown.notes,
        "declarations": list(map(declaration, seen.declared)),
        "stale_waivers": list(map(declaration_file.waiver_values, seen.stale)),
        "mends": [it._asdict() for it in seen.mends],
        "hints": list(map(hint_of, shown.hints)),
    }
    its = judged_of(shown) if shown.board else {}
    return {**told, **files_of(shown), **bounds_of(shown), **besides_of(shown), **its}


def json_text(all_shown: Sequence[Shown]) -> str:
    return indented_json.indented({"boardnet_show": FORM, "boards": [board_of(shown) for shown in all_shown]}) + "\n"
