"""Texts as XML and HTML have them."""
import re

from boardnet_show.base.wording import in_lines

NOT_XML = r"[^\t\n\r -\ud7ff\ue000-\ufffd\U00010000-\U0010ffff]"  # compiled where it is wanted: that takes long


def for_xml(text: str) -> str:
    """A text without the characters that XML has not, as names of files may have them."""
    return re.sub(NOT_XML, "\ufffd", text)


def escaped(text: str) -> str:
    """A text as XML has it outside marks."""
    return in_lines(text).replace("&", "&amp;").replace("<", "&lt;").replace(">", "&gt;")


def in_html(text: str) -> str:
    """A text as HTML has it, also in quotes. The library's own words load a table of all names of signs first."""
    return escaped(text).replace('"', "&quot;").replace("'", "&#x27;")
