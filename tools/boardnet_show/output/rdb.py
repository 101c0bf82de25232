"""The findings as a marker database of KLayout (*.lyrdb): lengths are micrometres."""
from typing import Iterable, Iterator, List, Tuple

from boardnet_show.findings.board import Board
from boardnet_show.findings.finding import Finding, doubt

from .markup import escaped, for_xml
from .sentences import declarations
from .sentences.findings import sentence
from .shown import Shown, in_words

KINDS = {
    "open": "Parts of a name that no copper joins",
    "short": "Names that copper joins",
    "missing": "Test points without copper",
    "gap": "Nets that are too close",
    "cut": "What unplated holes part when the board is made",
    "outside": "What lies outside the board's edge",
    "neck": "Joins that are narrower than asked for",
    "wider": "Copper that the files may mean beyond what is sure",
    "waived": "Findings that somebody has signed for",
    "tie": "Declared ties of names that no test point has",
    "beside": "What was asked for besides",
    "board": "Why the board is not judged",
}
Place = Tuple[int, int]
# Half the side of the box round a place, in u.
HALF = 1_000_000


def micrometres(u: int) -> str:
    sign, u = "-" if u < 0 else "", abs(u)
    return f"{sign}{u // 10_000}.{u % 10_000:04d}".rstrip("0").rstrip(".")


def at(place: Place) -> str:
    return f"{micrometres(place[0])},{micrometres(place[1])}"


def box(place: Place) -> str:
    x, y = place
    return f"box: ({at((x - HALF, y - HALF))};{at((x + HALF, y + HALF))})"


def values(board: Board, finding: Finding) -> Iterator[str]:
    """What KLayout marks: the line across an open, boxes round the places of the others."""
    spots = [board.spot(point) for point in finding.points]
    if finding.kind == "open" and None not in spots:
        yield f"edge: ({at(spots[0])};{at(spots[1])})"
    if finding.gap:
        yield box(finding.gap.place)
    for meet in finding.meets:
        yield box(meet.place)
    if finding.kind in ("missing", "outside") or finding.kind == "short" and not finding.meets:
        yield from map(box, spots)
    yield quoted(sentence(finding))


def quoted(words: str) -> str:
    return "text: '" + words.replace("\\", "\\\\").replace("'", "\\'") + "'"


def item(kind: str, name: str, marked: Iterable[str]) -> str:
    told = "".join(f"<value>{escaped(value)}</value>" for value in marked)
    return (
        f"  <item><tags/><category>{kind}</category><cell>board</cell><visited>false</visited>"
        "<multiplicity>1</multiplicity>"
        f"<comment>{escaped(name)}</comment><image/><values>{told}</values></item>"
    )


def items_of(shown: Shown) -> List[str]:
    """Every cause of a status that is not 0, and where a board that lies between two bounds is wider above."""
    its, wider = items_of_board(shown) if shown.board else ([], [])
    its += [
        item("beside", name, [*(box(place[:2]) for place in places), *map(quoted, in_words([what]))])
        for beside in shown.besides
        if not beside.findings
        for name, what, places in beside.causes()
    ]
    return (
        its if its or not shown.status else [item("board", f"status {shown.status}", [quoted(shown.sentence())])]
    ) + wider


def items_of_board(shown: Shown) -> Tuple[List[str], List[str]]:
    board = shown.board
    its = [item(finding.kind, doubt(finding) + finding.id, values(board, finding)) for finding in shown.findings]
    its += [item("waived", declarations.waived_words(it), values(board, it.finding)) for it in shown.seen.waived]
    its += [item("tie", "tie", [quoted(words)]) for words in shown.seen.lost_ties()]
    return its, [
        item("wider", f"{board.manifest.layer_word(layer)}", [f"polygon: ({';'.join(map(at, corners))})"])
        for layer, corners in shown.seen.wider
    ]


def marker_database(shown: Shown) -> str:
    categories = "".join(
        f"<category><name>{kind}</name><description>{told}</description><categories/></category>"
        for kind, told in KINDS.items()
    )
    items = items_of(shown)
    rows = [
        '<?xml version="1.0" encoding="utf-8"?>',
        "<report-database>",
        f"  <description>{escaped(shown.sentence(shown.title))}</description>",
        "  <original-file/>",
        "  <generator>boardnet show</generator>",
        "  <top-cell>board</top-cell>",
        "  <tags/>",
        f"  <categories>{categories}</categories>",
        "  <cells><cell><name>board</name><variant/><layout-name/><references/></cell></cells>",
        "  <items>",
        *items,
        "  </items>",
        "</report-database>",
        "",
    ]
    return for_xml("\n".join(rows))
