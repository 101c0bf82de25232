"""A record for people: a part of the board's page, or a page of its own where no picture can be drawn."""
from typing import Any, Dict, Iterable, Iterator, List, Tuple

from . import text_lines
from .markup import in_html
from .shown import Shown

SIDES = (
    ("came", "SHA-256 as it came"),
    ("judged", "as it was judged"),
    ("lower", "the least copper that it can mean"),
    ("upper", "the most"),
)


def cells(tag: str, words: Iterable[object]) -> str:
    return "<tr>" + "".join(f"<{tag}>{in_html(str(word))}</{tag}>" for word in words) + "</tr>"


def files(record: Dict[str, Any]) -> List[str]:
    """The sums of the files; those of bounds where there are some."""
    sides = [(key, word) for key, word in SIDES if any(key in it for it in record["files"])]
    rows = [[it["name"], it["role"], *((it.get(key) or "none") for key, _ in sides)] for it in record["files"]]
    return [cells("th", ["file", "role", *(word for _, word in sides)]), *(cells("td", row) for row in rows)]


def facts(record: Dict[str, Any]) -> Iterator[Tuple[str, object]]:
    """What is said beside the files, word and value."""
    yield "date", record["date"]
    yield "answer", f"{record['line']} (status {record['status']})"
    if record["beside"] != record["line"]:
        yield "with all that was asked for", record["beside"]
    for key, value in record["program"].items():
        yield {"program": "SHA-256 of the program", "sources": "SHA-256 of its sources"}.get(
            key, key
        ), value or "unknown"
    for key in ("mends", "ties", "declared", "hints"):
        yield key, "; ".join(record[key]) or "none"
    for it in record["reports"]:
        yield f"report of the {it['of']}", f"{it['line']} ({it['audit']}), SHA-256 {it['sha256']}"


def section(record: Dict[str, Any]) -> str:
    """The part of a page."""
    if not record:
        return ""
    told = "\n".join(cells("td", it) for it in facts(record))
    sums = "\n".join(files(record))
    return f'<section class="record"><h2>Record</h2>\n<table>\n{told}\n</table>\n<table>\n{sums}\n</table></section>\n'


def page(shown: Shown) -> str:
    """The record and what is told of the board, without a picture."""
    told = "".join(
        f"<p>{in_html(words)}</p>\n" for words in [shown.sentence(), *shown.notes, *text_lines.extra_lines(shown)]
    )
    return (
        '<!DOCTYPE html>\n<html lang="en">\n<head>\n<meta charset="utf-8">\n'
        f'<meta http-equiv="Content-Security-Policy" content="default-src \'none\'">\n<title>{in_html(shown.title)}:'
        " boardnet</title>\n</head>\n"
        f"<body>\n<h1>{in_html(shown.title)}</h1>\n{told}{section(shown.requested.record)}</body>\n</html>\n"
    )
