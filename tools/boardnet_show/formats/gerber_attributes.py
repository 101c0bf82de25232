"""The attributes of a copper file, by its words: in a pair of percent signs, or in a comment `G04 #@! T..` for older
readers.

The standard takes both for the same (Gerber Layer Format Specification, 5.1). `check` reads the first alone.
"""
import re
from typing import Dict, Iterator, List, NamedTuple

from boardnet_show.base.wording import printable

from .gerber_lexer import holding

COMMENT = re.compile(rb"G04[ \t]*#@![ \t]*(T[AFOD].*)", re.S)
NEGATIVE = b"negative"


# A character by its number (Gerber Layer Format Specification, 3.4.3).
ESCAPED = re.compile(r"\\u([0-9A-Fa-f]{4})")


def printable_field(text: str) -> str:
    """A field as it can be printed: fields that differ stay different, in files of UTF-8 and of Latin-1."""
    try:
        told = text.encode("latin-1").decode("utf-8")
    except UnicodeDecodeError:
        told = text
    return printable(ESCAPED.sub(lambda found: chr(int(found[1], 16)), told))


class Attribute(NamedTuple):
    """A word's first byte, its star, its two letters, its fields, the name first, and whether a comment says it."""

    start: int
    end: int
    kind: bytes
    fields: List[bytes]
    is_comment: bool

    def is_named(self, name: bytes) -> bool:
        return self.fields[0] == name

    def printable_fields(self) -> str:
        """The fields behind the name, as they can be printed."""
        return b",".join(self.fields[1:]).decode("ascii", "replace")


class InForce:
    """Those in force: of the next aperture its function, of the next objects net, part and pin, and all fields of
    these by their names."""

    def __init__(self) -> None:
        self.function = self.net = self.part = self.pin = ""
        self.of_objects: Dict[str, List[str]] = {}

    def word(self, text: str) -> None:
        """Takes the word of an attribute."""
        kind, (name, *fields) = text[:2], text[2:].split(",")
        if kind == "TO":
            self.of_objects[name] = fields
        if kind == "TA" and name == ".AperFunction":
            self.function = fields[0] if fields else ""
        elif kind == "TO" and name == ".N":
            self.net = fields[0] if fields else ""
        elif kind == "TO" and name == ".P":
            self.part, self.pin = (fields + ["", ""])[:2]
        elif kind == "TD":
            self.delete(name)

    def delete(self, name: str) -> None:
        """Ends one, or without a name all."""
        if name:
            self.of_objects.pop(name, None)
        else:
            self.of_objects.clear()
        for of, fields in ((".AperFunction", ["function"]), (".N", ["net"]), (".P", ["part", "pin"])):
            if name in ("", of):
                for field in fields:
                    setattr(self, field, "")


def as_written(word: bytes) -> bytes:
    """The attribute in a comment's word, with the blanks of its fields, or nothing."""
    found = COMMENT.fullmatch(word)
    return found[1] if found else b""


def said_by(word: bytes) -> bytes:
    """The attribute in a comment's word, or nothing."""
    return b",".join(field.strip() for field in as_written(word).split(b","))


def of_file(data: bytes, sign: bytes) -> Iterator[Attribute]:
    """The attributes whose word has a sign, as `TF.FileFunction`, in their order."""
    for it in holding(data, sign):
        text = it.text if it.inside else said_by(it.text)
        if text[:2] in (b"TF", b"TA", b"TO", b"TD"):
            yield Attribute(it.start, it.end, text[:2], text[2:].split(b","), not it.inside)


def functions(data: bytes) -> List[Attribute]:
    """What a file says that it is."""
    return [it for it in of_file(data, b"TF.FileFunction") if it.kind == b"TF" and it.is_named(b".FileFunction")]


def negatives(data: bytes) -> List[Attribute]:
    """The words that say that a file is negative, also with blanks or small letters, which `check` does not take for
    it."""
    found = (it for it in of_file(data, b"TF.FilePolarity") if it.is_named(b".FilePolarity"))
    return [it for it in found if b"".join(it.fields[1:2]).strip().lower() == NEGATIVE]


def has_names(data: bytes, name: bytes, field: int = 1) -> bool:
    """Whether a file has an attribute of objects of this name, as `.N`, with something in a field behind it."""
    found = (it for it in of_file(data, b"TO" + name) if it.kind == b"TO" and it.is_named(name))
    return any(b"".join(it.fields[field : field + 1]).strip() for it in found)


def written(data: bytes) -> bytes:
    """A file with its attributes in comments written as those that they are, which keeps the numbers of commands."""
    parts, at = [], 0
    for it in holding(data, b"#@!"):
        said = b"" if it.inside else said_by(it.text)
        if said:
            parts += [data[at : it.start], b"%" + said + b"*%"]
            at = it.end + 1
    return b"".join([*parts, data[at:]])
