"""A page for several boards: a list of them, each with its answer, its hint, and its own page beside it."""
import os
from typing import Dict, Optional, Sequence

from . import text_lines
from .markup import in_html
from .sentences import verdicts
from .shown import Shown

STYLE = (
    "body{font:15px/1.5 'DejaVu Sans',sans-serif;margin:2em;max-width:75em;color:#16191d}"
    "table{border-collapse:collapse;width:100%}"
    "td,th{text-align:left;vertical-align:top;padding:.4em .8em;border-bottom:1px solid #c9ced6}"
    ".agrees{color:#0a6b3d}.other{color:#a0006b}"
)


def page_names(path: str, all_shown: Sequence[Shown]) -> Dict[str, str]:
    """The file of each board's own page, by the board's path: beside the list, numbered, since two boards may have
    one name."""
    stem, ending = os.path.splitext(path)
    return {shown.path: f"{stem}-{number}{ending or '.html'}" for number, shown in enumerate(all_shown, 1)}


def row(shown: Shown, link: Optional[str]) -> str:
    name = in_html(shown.path)
    linked = f'<a href="{in_html(os.path.basename(link))}">{name}</a>' if link else name
    hint = text_lines.first_hint(shown)
    told = in_html(verdicts.before(shown.answer) + shown.verdict) + (f"<br>hint: {in_html(hint)}" if hint else "")
    kind = "agrees" if shown.status == 0 else "other"
    return f'<tr><td>{linked}</td><td class="{kind}">{shown.word}</td><td>{told}</td></tr>'


def page_html(all_shown: Sequence[Shown], links: Dict[str, str]) -> str:
    """The list; `links` has the pages that there are."""
    rows = "\n".join(row(shown, links.get(shown.path)) for shown in all_shown)
    total = in_html(text_lines.total(all_shown))
    return (
        '<!DOCTYPE html>\n<html lang="en">\n<head>\n<meta charset="utf-8">\n'
        "<meta http-equiv=\"Content-Security-Policy\" content=\"default-src 'none'; style-src 'unsafe-inline'\">\n"
        f"<title>{total}: boardnet</title>\n<style>{STYLE}</style>\n</head>\n<body>\n<h1>{total}</h1>\n"
        f"<table>\n<tr><th>Board</th><th>Answer</th><th>In full</th></tr>\n{rows}\n</table>\n</body>\n</html>\n"
    )
