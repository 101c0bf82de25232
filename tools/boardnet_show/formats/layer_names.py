"""What names say of a copper file without an attribute: its layer's name, its comments, its own. All of it is a
guess."""
import re
from enum import Enum
from typing import Iterator, List, NamedTuple, Optional, Tuple

from .gerber_lexer import holding

# Top, bottom, or what a number counts, and the number.
Place = Tuple[str, int]

# Names that have a side and are no copper.
NO_COPPER = re.compile(
    r"mask|paste|silk|legend|outline|assy|assembly|courtyard|adhes|drill|boundary|keep[ _-]?out|"
    # Short words stand alone: a board may be called hedgehog.
    r"resist(?!or)|(?<![a-z])(?:court|fab|fabrication|edge|keep|mechanical)(?![a-z])|"
    r"\.gt[spo]$|\.gb[spo]$|\.gm\d*$|\.gko$|\.(?:pl|st|cr)[cs]$|\.dim$",
    re.I,
)  # the last of Eagle
TOP = re.compile(
    r"f[._]cu|\.gtl$|\.cmp$|\.top$|(?:^|[._ -])(?:top|front|component)(?:[._ -]|$)|"
    r"top[._ -]?(?:copper|layer)|copper[._ -]?top",
    re.I,
)
BOTTOM = re.compile(
    r"b[._]cu|\.gbl$|\.sol$|\.bot$|(?:^|[._ -])(?:bot|bottom|back|solder)(?:[._ -]|$)|"
    r"bot(?:tom)?[._ -]?(?:copper|layer)|copper[._ -]?bot",
    re.I,
)
INNER = re.compile(
    r"in(\d+)[._]cu|\.g(\d+)$|\.gl(\d+)$|inner[._ -]?(?:layer)?[._ -]?(\d+)|intern.*?(\d+)(?:\.\w+)?$|"
    r"mid[._ -]?(?:layer)?[._ -]?(\d+)|\.in(\d+)$|\.(?:ly|l)(\d+)$",
    re.I,
)
# What the numbers of INNER count: inner layers from 1, those or layers of the board, groups of pcb-rnd and layers of
# Eagle, which have gaps.
INNER_KINDS = ("inner from 1", "inner from 1", "inner", "inner", "intern", "inner from 1", "inner from 1", "eagle")
PLANE = re.compile(r"\.gp(\d+)$", re.I)
# A layer's name of gEDA pcb, which writes a file for each group of layers.
GROUP = re.compile(r"group_?(\d+)$", re.I)
# The number of a layer of the board; in the second form a side may stand behind it, or before.
NUMBERED = re.compile(
    r"(?:^|[._ -])(?:l|layer)[._ -]?0*([1-9]\d?)(?:[._ -]|$)|"
    r"etch[._ -]?layer[._ -]?0*([1-9]\d?)|^art0*([1-9]\d?)\.pho$",
    re.I,
)
SIDED = re.compile(
    r"(?:^|[._ -]|etch[._ -]?)(?:(top|bot(?:tom)?)[._ -])?(?:l|layer)[._ -]?0*[1-9]\d?"
    r"(?:[._ -]?(top|bot(?:tom)?))?(?:[._ -]|$)",
    re.I,
)
HEAD = 4096  # bytes of a file in which its comments are looked for
FILM = re.compile(rb"G04[ \t]*Film[ \t]+Name[ \t]*:[ \t]*(.*?)[ \t]*")
LAYER = re.compile(rb"G04[ \t]*Layer[ \t]*:[ \t]*(.*?)[ \t]*")
TITLE = re.compile(rb"G04[ \t]*Title[ \t]*:[^\r\n]*,[ \t]*([^,]*?)[ \t]*")
NEGATIVE_FILM = re.compile(rb"G04[ \t]*Mode[ \t]*:[ \t]*Negative[ \t]*", re.I)
ETCHED = ("ETCH", "CONDUCTOR")  # Allegro's classes of copper


class Source(Enum):
    """Where a name stands, in words."""

    LAYER_NAME = "its layer name is {}"
    ETCH = "its comment says Layer: {}"  # of copper, be it known which layer or not
    FILM = "its comment says Film Name: {}"
    LAYER = "its comment says the layer {}"
    TITLE = "its comment says Title: {}"
    FILE = "its name looks so"


class Said(NamedTuple):
    """A name that a file gives itself or has; `whole` is what stands there."""

    source: Source
    name: str
    whole: str

    def layer(self) -> Optional[Place]:
        return place_of(self.name)


def layer_name_of(data: bytes) -> str:
    """The layer's name that a file gives itself."""
    found = (word.text for word in holding(data, b"LN") if word.inside)
    return next((text[2:].decode("ascii", "replace") for text in found if text.startswith(b"LN")), "")


def comments_of(data: bytes) -> List[bytes]:
    return [word.text for word in holding(data[:HEAD], b"G04") if not word.inside]


def fields(comments: List[bytes], form: "re.Pattern[bytes]") -> Iterator[str]:
    """What comments of a form say."""
    for text in comments:
        found = form.fullmatch(text)
        if found and found[1]:
            yield found[1].decode("ascii", "replace")


def said_by_comments(data: bytes) -> Iterator[Said]:
    """What the comments of a film say: its layers of copper, its name, and other layers where none is of copper."""
    comments = comments_of(data)
    layers = list(fields(comments, LAYER))
    copper = [layer for layer in layers if layer.rpartition("/")[0].upper() in ETCHED]
    yield from (Said(Source.ETCH, layer.rpartition("/")[2], layer) for layer in copper)
    yield from (Said(Source.FILM, film, film) for film in fields(comments, FILM))
    yield from (Said(Source.LAYER, layer, layer) for layer in layers if not copper)


def titles_of(data: bytes) -> Iterator[Said]:
    """The sides that titles of gEDA pcb say."""
    for title in fields(comments_of(data), TITLE):
        if TOP.search(title) or BOTTOM.search(title):
            yield Said(Source.TITLE, title, title)


def all_said(name: str, data: bytes) -> Iterator[Said]:
    """The names of a file, those that count most first: a group of gEDA pcb says less than its title."""
    layer = layer_name_of(data)
    its = [Said(Source.LAYER_NAME, layer, layer)] if layer else []
    if GROUP.match(layer):
        its = [*titles_of(data), *its]
    yield from its
    yield from said_by_comments(data)
    yield Said(Source.FILE, name, name)


def place_of(text: str) -> Optional[Place]:
    """What a layer's or file's name says: top, bottom, or a number with inner or layer; or nothing."""
    if NO_COPPER.search(text):
        return None
    for pattern, kinds in ((PLANE, ("plane",)), (INNER, INNER_KINDS), (GROUP, ("group",)), (NUMBERED, ("layer",) * 3)):
        found = pattern.match(text) if pattern is GROUP else pattern.search(text)
        if found and found.lastindex:
            digits = found[found.lastindex]
            return (kinds[found.lastindex - 1], int(digits)) if len(digits) < 10 else None
    if TOP.search(text):
        return "top", 0
    return ("bottom", 0) if BOTTOM.search(text) else None


def side_at_number(text: str) -> str:
    """Top or bottom, where that stands with a layer's number; or nothing."""
    found = SIDED.search(text)
    word = (found[1] or found[2] or "").lower() if found else ""
    return "top" if word == "top" else "bottom" if word else ""


def named(name: str, data: bytes) -> Optional[Said]:
    """The first of a file's names that says what the file is, be it copper or not; or nothing."""
    return next((said for said in all_said(name, data) if said.layer() or NO_COPPER.search(said.name)), None)


def is_named_otherwise(name: str, data: bytes) -> bool:
    """Whether a name says that a file is no copper, and none that it is an inner layer: a board's own name may have
    any word."""
    is_inner = any(pattern.search(text) for pattern in (INNER, PLANE, NUMBERED) for text in (name, layer_name_of(data)))
    return named(name, data) is not None and not is_inner


def contradicting(name: str, data: bytes) -> Optional[Tuple[Said, Said]]:
    """Two names of a file, one of them in a comment, that say different layers."""
    its = [*said_by_comments(data), Said(Source.FILE, name, name)]
    known = [(said, place) for said in its for place in [said.layer()] if place]
    return next(((one, other) for one, place in known for other, second in known if differ(place, second)), None)


def differ(place: Place, other: Place) -> bool:
    """Whether two places cannot be the same."""
    kinds = {place[0]: place[1], other[0]: other[1]}
    if len(kinds) == 1:
        return place != other
    if "layer" in kinds and kinds.keys() & {"top", "bottom"}:
        return kinds["layer"] > 1 if "top" in kinds else kinds["layer"] == 1
    return bool(kinds.keys() & {"top", "bottom"})


def etched(data: bytes) -> Optional[Said]:
    """What says that a file is copper, be it known which layer or not."""
    return next((said for said in said_by_comments(data) if said.source is Source.ETCH), None)


def is_negative_film(data: bytes) -> bool:
    """Whether a comment says that a film is negative, and no word does."""
    is_said = any(NEGATIVE_FILM.fullmatch(text) for text in comments_of(data))
    return is_said and not any(word.inside and word.text == b"IPNEG" for word in holding(data, b"IPNEG"))
