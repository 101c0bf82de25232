"""What is found on a board and where to look, as values: one type for each sentence, of which
`output.sentences.findings` makes the words.

They speak of test points, places of copper and what made a piece.
"""
from typing import NamedTuple, Optional, Tuple, Union

Spot = Tuple[int, int]
# x and y in u, and a layer.
Place = Tuple[int, int, int]


class Pin(NamedTuple):
    """A test point by its part and pin, else by its record, which is 0 where the part names it; `is_via` where that is
    one."""

    component: str = ""
    pin: str = ""
    record: int = 0
    is_via: bool = False


class PointAt(NamedTuple):
    """A test point and where it lies, with the layer's word."""

    pin: Pin
    layer: str
    place: Spot


class NamedPoint(NamedTuple):
    """A test point with its net's name."""

    name: str
    point: PointAt


class CopperAt(NamedTuple):
    """A place of copper: the layer's word and file."""

    layer: str
    file: str
    place: Spot


class Source(NamedTuple):
    """Which command of the file that came, or which line of a drill file, made a piece, 0 where that is not known; and
    which copy of it, from 1 where it is repeated."""

    file: str
    number: int
    is_line: bool = False
    copy: int = 0


class MeetingPlace(NamedTuple):
    """Where the names of a short meet first, in how many more places they do, and whether the files' labels say so."""

    place: CopperAt
    more: int
    is_labelled: bool


class Touch(NamedTuple):
    """Where an upper board joins what the lower one parts, and what made the pieces there."""

    sources: Tuple[Source, ...]
    layer: str
    place: Spot


# ---- what both boards say; `is_sure` where both do


class InParts(NamedTuple):
    """A name is in several parts, each told by a point."""

    name: str
    firsts: Tuple[PointAt, ...]
    is_sure: bool
    touches: Tuple[Touch, ...] = ()


class TieParted(NamedTuple):
    """Names that are declared to be tied, and that no copper joins, or not for certain."""

    names: Tuple[str, ...]
    source: str
    points: Tuple[PointAt, ...]
    is_sure: bool
    touches: Tuple[Touch, ...] = ()


class NamesJoined(NamedTuple):
    """Names on one net, and where they meet, where that is known."""

    points: Tuple[NamedPoint, ...]
    is_sure: bool
    touches: Tuple[Touch, ...] = ()
    where: Optional[MeetingPlace] = None


class BareBelow(NamedTuple):
    """A test point without copper."""

    point: NamedPoint
    is_sure: bool


BothSay = Union[InParts, TieParted, NamesJoined, BareBelow]


# ---- what is told of a board besides


class UnnamedJoined(NamedTuple):
    """The points of pins without net that are joined, of the first nets, and how many more nets have such."""

    groups: Tuple[Tuple[PointAt, ...], ...]
    more: int


# ---- opens, shorts, and points without copper


class NotJoined(NamedTuple):
    """Two parts of a name by their nearest points, how far these are apart in u where that is known, how many parts
    there are, and the pins of both."""

    here: PointAt
    there: PointAt
    away: Optional[float]
    name: str
    parts: int
    pins: Tuple[Tuple[Pin, ...], Tuple[Pin, ...]]


class TieNotMade(NamedTuple):
    """Two names that are declared to be tied, where, and their nearest points."""

    names: Tuple[str, ...]
    source: str
    nearest: Tuple[PointAt, PointAt]


class NamesMeet(NamedTuple):
    """Names on one net, tied ones together, a point of each, and where they meet, where that is known."""

    sides: Tuple[Tuple[str, ...], ...]
    points: Tuple[NamedPoint, ...]
    where: Optional[MeetingPlace] = None


class NoCopper(NamedTuple):
    """A test point without copper, and the file of its layer."""

    file: str
    point: NamedPoint


# ---- what the made board parts, and copper that is too near or too narrow


class HoleAt(NamedTuple):
    """A hole or slot without plating: its diameter and middle in u, and where a file has it."""

    is_slot: bool
    diameter: int
    place: Spot
    file: str
    line: int


class PartedWhenMade(NamedTuple):
    """Points that the made board parts, or one that loses its copper, and what takes it away: holes, and None for the
    board's edge."""

    cutters: Tuple[Optional[HoleAt], ...]
    name: str
    points: Tuple[PointAt, ...]
    is_certain: bool


class OutsideEdge(NamedTuple):
    """A test point outside the board's edge."""

    point: NamedPoint


class Neck(NamedTuple):
    """Points that copper joins which is narrower than a width in u, or of no width."""

    name: str
    points: Tuple[PointAt, ...]
    width: int
    place: CopperAt
    is_certain: bool


class NetSide(NamedTuple):
    """A net by its names and number, which is None for copper that the lower of two bounds leaves out."""

    names: Tuple[str, ...]
    net: Optional[int]


class Apart(NamedTuple):
    """How far two nets are apart in u, as far as it is known; `is_exact` where both bounds are one board."""

    least: Optional[int] = None
    most: Optional[int] = None
    is_exact: bool = False
    may_be_joined: bool = False


class TooClose(NamedTuple):
    """Two nets on a layer, what made the copper where they come nearest, and the pins near it."""

    sides: Tuple[NetSide, ...]
    apart: Apart
    place: CopperAt
    sources: Tuple[Source, ...]
    near: Tuple[Pin, ...]


Fact = Union[NotJoined, TieNotMade, NamesMeet, NoCopper, PartedWhenMade, OutsideEdge, Neck, TooClose, BothSay]


class Flood(NamedTuple):
    """Most test points have no copper, which has one cause: how many, and of how many."""

    bare: int
    points: int


# ---- where to look


class NoCommonLayer(NamedTuple):
    """The two parts of an open have no copper on one layer."""


class HoleMissing(NamedTuple):
    """Both parts of an open have copper at a place, on two layers."""

    place: CopperAt
    below: str


class ComesNearest(NamedTuple):
    """Where the copper of both parts comes nearest, and how near in u."""

    distance: float
    place: CopperAt


class AllLabelled(NamedTuple):
    """All labelled copper of a short has one name, which is another than the netlist's."""

    name: str


class MeetsAt(NamedTuple):
    """Where two names meet: what made the copper of each, what made that which could be either's, and how many pieces
    that is."""

    names: Tuple[str, str]
    ends: Tuple[Source, Source]
    between: Tuple[Source, ...]
    pieces: int
    place: CopperAt


class MorePlaces(NamedTuple):
    """In how many further places names meet."""

    more: int


class TieWouldDeclare(NamedTuple):
    """A part that has pins of two names, where they meet, and these as an option has them."""

    component: str
    names: str


class Reaches(NamedTuple):
    """Over which copper a name reaches the others."""

    name: str
    over: Tuple[Source, ...]


class LabelsChange(NamedTuple):
    """Two pieces that touch, and what the files call each."""

    ends: Tuple[Source, Source]
    labels: Tuple[str, str]


class ShortName(NamedTuple):
    """What a netlist has for a whole name."""

    short: str
    whole: str


Lead = Union[
    NoCommonLayer,
    HoleMissing,
    ComesNearest,
    AllLabelled,
    MeetsAt,
    MorePlaces,
    TieWouldDeclare,
    Reaches,
    LabelsChange,
    ShortName,
]
