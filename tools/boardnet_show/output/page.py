"""The page: one HTML file with all that it needs, and nothing fetched.

The board's data are one block: a head in JSON, then columns of whole numbers, little endian, packed by zlib and written
in base64. Lengths in it are nanometres. The browser unpacks it; the findings stand in the HTML itself, so that they can
be read, searched and printed without it.
"""
import base64
import hashlib
import json
import os
import sys
import zlib
from array import array
from operator import sub
from typing import Any, Dict, Iterable, List, Sequence, Tuple

from boardnet_show.base.wording import counted, printable, spoken
from boardnet_show.findings.board import Board
from boardnet_show.findings.finding import Finding, doubt
from boardnet_show.findings.meeting_places import Meet
from boardnet_show.findings.waivers import OF_NETLIST

from . import record_page, text_lines
from .markup import in_html
from .sentences import made_first
from .sentences.findings import flood_words
from .sentences.findings import hints as hints_of
from .sentences.findings import words as words_of
from .shown import Shown
from .text_lines import cut

BETWEEN_BOUNDS = (
    "Some of the copper is not known exactly, as arcs and turned shapes are. Shown is the least that the files can"
    " mean; where the most is over a micrometre wider, that is outlined by dashes. What is not certain is called"
    " undecided."
)
Place = Tuple[float, float]
HERE = os.path.join(os.path.dirname(os.path.abspath(__file__)), "page_assets")
TITLES = {
    "open": "Opens",
    "short": "Shorts",
    "missing": "Points without copper",
    "gap": "Gaps",
    "cut": "Cut by holes",
    "outside": "Outside the edge",
    "neck": "Necks",
}
# As the marks in the picture.
SIGNS = {
    "open": "\u2296",
    "short": "\u2715",
    "missing": "\u25a1",
    "gap": "\u21d4",
    "cut": "\u2298",
    "outside": "\u21f1",
    "neck": "\u29d6",
}
# So many findings of a kind stand open, the further ones in folds; their suggestions stand in the data alone, which is
# packed.
OPEN, FOLD = 300, 500
FEW = 6  # files that are named
SCRIPTS = ("data", "words", "view", "paint", "draw", "marks", "chosen", "list", "search", "move", "act")


def asset(name: str) -> str:
    with open(os.path.join(HERE, name), encoding="utf-8") as file:
        return file.read()


def script() -> str:
    parts = "\n".join(asset(name + ".js") for name in SCRIPTS)
    return f'"use strict";\n(async () => {{\n{parts}}})();\n'


def nanometres(u: int) -> int:
    return (u + 5) // 10


def in_nanometres(lengths: Iterable[int]) -> List[int]:
    return [(u + 5) // 10 for u in lengths]


def steps(numbers: Sequence[int]) -> List[int]:
    """Each number less the one before it: neighbours in a file are near each other, and pack well."""
    return [*numbers[:1], *map(sub, numbers[1:], numbers)]


class Columns:
    """Named columns of whole numbers, each of as many bytes as it wants, as byte planes, lowest first."""

    def __init__(self) -> None:
        self.heads: List[List[Any]] = []
        self.parts: List[bytes] = []

    def add(self, name: str, numbers: Sequence[int], are_steps: bool = False) -> None:
        least, most = min(numbers, default=0), max(numbers, default=0)
        packed = array(
            "b" if -128 <= least and most < 128 else "h" if -32_768 <= least and most < 32_768 else "i", numbers
        )
        if sys.byteorder == "big":
            packed.byteswap()
        data, width = packed.tobytes(), packed.itemsize
        self.heads.append([name, width, len(packed), int(are_steps)])
        self.parts += [data[plane::width] for plane in range(width)]

    def add_steps(self, name: str, numbers: Iterable[int]) -> None:
        self.add(name, steps(list(numbers)), True)


def sides_of(findings: Sequence[Finding], pieces: int) -> Tuple[List[int], Dict[str, List[str]]]:
    """For each piece on a short the number, from 1, of its name among the finding's sides, else 0; and the sides of
    each finding."""
    column, names = [0] * pieces, {}
    for finding in findings:
        if finding.kind == "short":
            order = list(dict.fromkeys(name for meet in finding.meets for name in meet.names))
            order += sorted(set(finding.sides.values()) - set(order))
            number = {name: k for k, name in enumerate(order, 1)}
            names[finding.id] = order
            for piece, name in finding.sides.items():
                column[piece] = number[name]
    return column, names


def by_names(names: Sequence[str], rows: Sequence[Sequence[int]]) -> Iterable[Tuple[str, Sequence[int]]]:
    """The columns of rows, each with its name."""
    return zip(names, [*zip(*rows)] or [()] * len(names))


def columns_of(board: Board, sides: Sequence[int]) -> Columns:
    shapes, report, columns = board.shapes, board.report, Columns()
    starts = shapes.start
    columns.add("counts", [*map(sub, starts[1:], starts)])
    columns.add("radii", [nanometres(r) if r >= 0 else -1 for r in shapes.radius])
    columns.add_steps("xs", in_nanometres(shapes.x))
    columns.add_steps("ys", in_nanometres(shapes.y))
    columns.add_steps("nets", report.net_of)
    columns.add_steps("sides", sides)
    # No command is 0: it stands for one that is not known.
    came = [(file, *(board.came(piece) or (0, 0)), *span) for piece, (file, _, _, *span) in enumerate(report.sources)]
    for name, column in by_names(("pieceFiles", "commands", "copies", "tops", "bottoms"), came):
        columns.add_steps(name, column)
    for name, column in by_names(("pointXs", "pointYs"), report.spots):
        columns.add_steps(name, in_nanometres(column))
    for name, column in by_names(("pointRecords", "pointLayers", "pointNames", "pointNets"), report.points):
        columns.add_steps(name, column)
    return columns


def distinct(texts: Iterable[str]) -> Tuple[List[str], List[int]]:
    """The distinct texts, and which one each is."""
    numbers: Dict[str, int] = {}
    which = [numbers.setdefault(text, len(numbers)) for text in texts]
    return list(numbers), which


def in_whole_nanometres(spot: Place) -> List[int]:
    return [nanometres(round(spot[0])), nanometres(round(spot[1]))]


def meet_data(meet: Meet, sides: Sequence[str]) -> Dict[str, Any]:
    x, y = in_whole_nanometres(meet.place)
    return {
        "first": sides.index(meet.names[0]),
        "second": sides.index(meet.names[1]),
        "chain": meet.chain,
        "near": meet.near,
        "far": meet.far,
        "x": x,
        "y": y,
        "layer": meet.layer,
    }


def finding_data(finding: Finding, sides: Dict[str, List[str]]) -> Dict[str, Any]:
    told = {"id": finding.id, "points": finding.points, "nets": finding.nets, "hints": hints_of(finding)}
    if finding.gap:
        gap = finding.gap
        told["gap"] = [*in_whole_nanometres(gap.place), gap.layer, nanometres(round(max(gap.distance, 0))), gap.below]
    if finding.kind == "short":
        told["sides"] = sides[finding.id]
        told["meets"] = [meet_data(meet, sides[finding.id]) for meet in finding.meets]
    return told


def wider_data(shown: Shown) -> List[Any]:
    """What the upper of two bounds has beyond the lower one: layer and corners."""
    return [[layer, [v for spot in corners for v in in_whole_nanometres(spot)]] for layer, corners in shown.seen.wider]


def in_page(value: Any) -> Any:
    """The same data with texts as they are told."""
    if isinstance(value, dict):
        return {key: in_page(it) for key, it in value.items()}
    return (
        printable(value)
        if isinstance(value, str)
        else [in_page(it) for it in value]
        if isinstance(value, (list, tuple))
        else value
    )


def block(board: Board, findings: Sequence[Finding], wider: Sequence[Any] = ()) -> str:
    """The data, packed."""
    manifest, (column, sides) = board.manifest, sides_of(findings, board.report.pieces)
    columns = columns_of(board, column)
    components, which_component = distinct(record.component for record in board.records)
    pins, which_pin = distinct(record.pin for record in board.records)
    netlist = board.manifest.netlist
    columns.add_steps("recordLines", (board.came_line(netlist, record.line) for record in board.records))
    columns.add_steps("recordComponents", which_component)
    columns.add_steps("recordPins", which_pin)
    head = json.dumps(
        in_page(
            {
                "files": manifest.files,
                "copper": manifest.layers,
                "netlist": manifest.netlist,
                "layers": [manifest.layer_word(k + 1) for k in range(manifest.layers)],
                "names": board.report.names,
                "netCount": board.report.nets,
                "wider": list(wider),
                "components": components,
                "pins": pins,
                "findings": [finding_data(finding, sides) for finding in findings],
                "columns": columns.heads,
            }
        ),
        separators=(",", ":"),
    ).encode()
    raw = len(head).to_bytes(4, "little") + head + b"".join(columns.parts)
    return base64.b64encode(zlib.compress(raw, 9)).decode()


def row(finding: Finding, is_hinted: bool) -> str:
    hints = "".join(f'<p class="hint">{in_html(hint)}</p>' for hint in hints_of(finding)) if is_hinted else ""
    return (
        f'<li id="{finding.id}"><a href="#{finding.id}"><b>{doubt(finding)}{finding.kind} {finding.number}</b> '
        f"{in_html(words_of(finding))}</a>{hints}</li>"
    )


def rows(findings: Sequence[Finding], is_hinted: bool) -> str:
    return "<ol>\n" + "\n".join(row(finding, is_hinted) for finding in findings) + "\n</ol>"


def fold(kind: str, findings: Sequence[Finding]) -> str:
    """Rows that a browser with scripts reads as text, until they are wanted."""
    return (
        f"<details><summary>{kind} {findings[0].number} to"
        f" {findings[-1].number}</summary><noscript>{rows(findings, False)}</noscript></details>\n"
    )


def list_of(kind: str, findings: Sequence[Finding]) -> str:
    if not findings:
        return ""
    folds = "".join(fold(kind, findings[at : at + FOLD]) for at in range(OPEN, len(findings), FOLD))
    # Between bounds a finding may be several opens of the report.
    count = len(findings) if findings[0].sure is None else counted(len(findings), "finding")
    head = f'<h2><i aria-hidden="true">{SIGNS[kind]}</i> {TITLES[kind]} <span>{count}</span></h2>'
    return f"<section>{head}\n{rows(findings[:OPEN], True)}\n{folds}</section>\n"


def verdict(shown: Shown) -> str:
    """The words of the terminal."""
    return shown.sentence()


def audited(shown: Shown) -> str:
    """What the audit is of: the files, or copies in place of some."""
    copies = dict.fromkeys(it.file for it in shown.seen.mends)
    words = [*(f"{name} (mended)" for name in copies), *(f"{name} (flattened)" for name in shown.seen.flattened)]
    words += dict.fromkeys(f"{name} (as declared)" for it in shown.seen.declared for name in it.files)
    waived = (
        ", and what is waived as a finding" if any(it.finding.kind in OF_NETLIST for it in shown.seen.waived) else ""
    )
    of = f"these files, with copies in place of {spoken(words, FEW)}" if words else "these files"
    return (
        "The report was audited: it is true of"
        f" {of}{', and has each declared tie as a short' if shown.seen.ties.ties else ''}{waived}."
    )


def facts(shown: Shown) -> str:
    board, sure = shown.board, audited(shown)
    if shown.bounds:
        sure = BETWEEN_BOUNDS
    return (
        f"{counted(board.report.pieces, 'piece')} of copper in {counted(board.report.nets, 'net')}; "
        f"{counted(len(board.report.points), 'test point')} with {counted(len(board.report.names), 'name')}; "
        f"{counted(board.manifest.layers, 'layer')}. {sure} "
        "Suggestions are where to look, and no part of the report."
    )


def source_hash(source: str) -> str:
    return "'sha256-" + base64.b64encode(hashlib.sha256(source.encode()).digest()).decode() + "'"


def paragraphs(told: Iterable[str]) -> str:
    return "".join(f'<p class="advice">{in_html(words)}</p>\n' for words in told)


def advice(shown: Shown) -> str:
    """What is told above the findings: hints, what is declared, a flood, and what was asked for besides."""
    told = [
        *(f"hint: {words}" for words in text_lines.hint_words(shown)),
        *made_first.declared(shown.seen),
        *([flood_words(shown.seen.flood)] if shown.seen.flood else []),
    ]
    return paragraphs([*told, *cut(list(text_lines.extra_lines(shown)), False)])


def folded(shown: Shown) -> str:
    """The other notes, which most do not want, behind a line that counts them."""
    above = made_first.declared(shown.seen)
    told = [words for words in shown.notes if words not in above]
    count = f", and {counted(len(told), 'note')}" if told else ""
    rules = "".join(f'<p class="facts">{in_html(words)}</p>\n' for words in shown.in_rules_words())
    return (
        f'<summary>How it was judged{count}</summary>\n<p class="facts">{in_html(facts(shown))}</p>\n'
        f"{paragraphs(told)}{rules}"
    )


def page_html(shown: Shown) -> str:
    style, code = asset("page.css"), script()
    lists = "".join(list_of(kind, [f for f in shown.findings if f.kind == kind]) for kind in TITLES)
    fills = {
        "POLICY": (
            f"default-src 'none'; script-src {source_hash(code)}; style-src {source_hash(style)}; base-uri 'none';"
            " form-action 'none'"
        ),
        "TITLE": in_html(shown.title),
        "STYLE": style,
        "SCRIPT": code,
        "STATE": "agrees" if shown.status == 0 else "differs",
        "VERDICT": in_html(verdict(shown)),
        "FOLDED": folded(shown),
        "ADVICE": advice(shown),
        "FINDINGS": (
            lists
            or f'<p class="none">{"No finding" if shown.status else "No open, no short, no point without copper"}.</p>'
        ),
        "DATA": block(shown.board, shown.findings, wider_data(shown)),
        "RECORD": record_page.section(shown.requested.record),
    }
    parts = asset("page.html").split("@@")
    return "".join(fills[part] if k % 2 else part for k, part in enumerate(parts))
