"""JSON as the standard library writes it with an indent of 1, whose encoder with an indent is slow: in a third of its
time."""
import json
from json.encoder import encode_basestring_ascii as quoted
from typing import Any

from boardnet_show.base.wording import numbered


def whole(text: str) -> str:
    """A text without halves of characters, as names that are no UTF-8 have them: no text of JSON has one."""
    return text if text.isascii() else "".join(numbered(ord(it)) if "\ud800" <= it <= "\udfff" else it for it in text)


def indented(value: Any, line: str = "\n") -> str:
    """A value of texts, whole numbers, finite ones, lists and the like; `line` is how a line of it begins."""
    kind = type(value)
    if kind is str:
        return quoted(whole(value))
    if kind is int or kind is float:
        return repr(value)
    if not value or not isinstance(value, (dict, list, tuple)):
        return json.dumps(value)
    inner = line + " "
    if isinstance(value, dict):
        return (
            "{"
            + inner
            + ("," + inner).join([f"{quoted(whole(key))}: {indented(it, inner)}" for key, it in value.items()])
            + line
            + "}"
        )
    return "[" + inner + ("," + inner).join([indented(it, inner) for it in value]) + line + "]"
