"""What is told of a board beside its findings, as values: one type for each sentence that `output.sentences.notes`
makes."""
from typing import Any, NamedTuple, Optional, Sequence, Tuple, Union

from boardnet_show.base.facts import CopperAt, Pin, Place, PointAt, Source, Spot

from boardnet_show.base.facts import HoleAt
from .finding import Finding

# ---- the board as it is made


class HarmlessHoles(NamedTuple):
    """Unplated holes that take copper away and part nothing, by the first of them."""

    number: int
    first: HoleAt


class ThinJoin(NamedTuple):
    """Points that are joined by copper alone that only touches, and in how many more nets there are such."""

    points: Tuple[PointAt, ...]
    name: str
    more: int


class CutsNotAsked(NamedTuple):
    """That nobody looked at what unplated holes and the edge take away: how many holes the drill files of such have,
    None where there is none."""

    holes: Optional[int]
    has_edge: bool


class HolesNotRead(NamedTuple):
    """A drill file whose unplated holes are not read."""

    file: str


class EdgeNotKnown(NamedTuple):
    why: str


class LossNotKnown(NamedTuple):
    """That it is not known what holes and the edge take away."""

    why: str


# ---- holes and copper by the netlist


class PlatedAs(NamedTuple):
    """A hole that is plated where its record says that it is not, or the other way round."""

    plated: bool
    source: Source


class WideAs(NamedTuple):
    """A hole of another diameter than its record's, in u."""

    wanted: int
    source: Source
    diameter: int


class WrongHole(NamedTuple):
    """A record of a hole that no drill file has so; None where there is no hole at all."""

    pin: Pin
    name: str
    line: int
    why: Optional[Union[PlatedAs, WideAs]]


class UnnamedHoles(NamedTuple):
    """How many plated holes no record names, and the first of them."""

    number: int
    firsts: Tuple[Source, ...]


class FloatingCopper(NamedTuple):
    """How many parts of copper have no test point and no hole, and the layers and middles of the largest."""

    number: int
    largest: Tuple[Tuple[str, Spot], ...]


class LargerHoles(NamedTuple):
    """How many plated holes are larger than their copper, and the first of them with their layers."""

    number: int
    firsts: Tuple[Tuple[Source, str], ...]


# ---- gaps


class GapRule(NamedTuple):
    """What is counted as a gap, in u, and how many pairs the program lists and how many of them count, where there is
    one list."""

    under: int
    listed: Optional[int] = None
    counted: int = 0


# ---- what is said of a part of the answer that is not on the netlist


class NotKnown(NamedTuple):
    """That something that was asked for is not known."""

    what: str
    why: str


class GapsCounted(NamedTuple):
    certain: int
    possible: int
    under: int


class NecksCounted(NamedTuple):
    certain: int
    possible: int
    under: int


class SomeWaived(NamedTuple):
    """What was said of findings of which some are waived, how many these are, and how many are left."""

    said: Any
    waived: int
    left: int


class MadeCounted(NamedTuple):
    """What the made board has less."""

    cuts: int
    outside: int
    possible: int


class HolesCompared(NamedTuple):
    """How many records of holes no drill file has so."""

    wrong: int


class HolesNotCompared(NamedTuple):
    """That holes and copper are not compared with the netlist."""


# ---- the comparison with another board


class NearThere(NamedTuple):
    """What of the other board is near the place where a net is parted here."""

    source: Source
    place: CopperAt


class ApartThere(NamedTuple):
    """How far apart two nets are on the other board, in u, and what made them where they come nearest."""

    distance: int
    place: CopperAt
    sources: Tuple[Source, Source]


class HasIt(NamedTuple):
    """What of the other board has a pad that is missing here."""

    source: Source


class Difference(NamedTuple):
    """What the other board's netlist finds here, and what is there; places are (x, y, layer) on either, in u. It is
    `sure` but between bounds."""

    id: str
    kind: str
    sure: bool
    finding: Finding
    there: Optional[Union[NearThere, ApartThere, HasIt]]
    places: Sequence[Place]
    places_there: Sequence[Place]

    def name(self) -> str:
        return self.id if self.sure else f"undecided {self.id}"


class OtherPlaced(NamedTuple):
    """How the other board was moved, and the tool's setting that would do so."""

    change: Any
    setting: str


class Likened(NamedTuple):
    """How many differences of each kind there are, whether all of the other board is known, and what of it was not
    compared."""

    path: str
    parted: int
    joined: int
    missing: int
    is_whole: bool
    untouched: str


class NotLikened(NamedTuple):
    """Why a board is not compared with another one."""

    path: str
    why: str


class NoTester(NamedTuple):
    """That no netlist for a tester is made, and what became of it where that is told."""

    tester: Any = None
