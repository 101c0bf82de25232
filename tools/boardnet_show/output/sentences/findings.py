"""Findings in words, from what they say as values: what is so, and where to look."""
import shlex
from typing import Any, Callable, Dict, Iterable, List, Optional, Tuple

from boardnet_show.base import facts
from boardnet_show.base.facts import (
    Apart,
    BareBelow,
    CopperAt,
    Fact,
    HoleAt,
    InParts,
    Lead,
    MeetingPlace,
    NamedPoint,
    NamesJoined,
    NetSide,
    Pin,
    PointAt,
    Source,
    Spot,
    TieParted,
    Touch,
)
from boardnet_show.base.wording import at_most, counted, millimetres, spoken
from boardnet_show.findings.finding import KNOWN, LABELLED, SUGGESTED, Clue, Finding
from boardnet_show.formats.ipc356 import NO_NET

# What stands before a clue, by why it is told.
LEADS = {SUGGESTED: "Suggestion: ", LABELLED: "By the files' labels: ", KNOWN: ""}
LEFT_OUT = "copper that is not sure"
ABOVE_ALONE = "only if the copper is the most that the files can mean"
# As many are told of a list.
FEW, FEW_NAMES, FEW_TOUCHES, FEW_SOURCES = 4, 2, 3, 8


# ---- what findings speak of


def net_name(name: str) -> str:
    return "a pin without net (N/C)" if name == NO_NET else name


def pin_words(pin: Pin) -> str:
    if pin.is_via:
        return f"the via of test record {pin.record}"
    if not pin.component:
        return f"test record {pin.record}"
    return f"{pin.component} pin {pin.pin}" if pin.pin else pin.component


def spot_words(spot: Spot) -> str:
    return f"{millimetres(spot[0])}, {millimetres(spot[1])} mm"


def point_words(point: PointAt) -> str:
    """A point with its layer and place."""
    return f"{pin_words(point.pin)} ({point.layer}, {spot_words(point.place)})"


def points_words(points: Iterable[PointAt], few: int = FEW) -> str:
    return spoken(map(point_words, points), few)


def copper_words(place: CopperAt) -> str:
    return f"{place.layer} ({place.file}) at {spot_words(place.place)}"


def source_words(source: Source) -> str:
    """Which command or line of which file made a piece; the file alone where no more is known."""
    if not source.number:
        return f"{source.file} as it was rewritten"
    copy = f" copy {source.copy}" if source.copy else ""
    return f"{source.file} {'line' if source.is_line else 'command'} {source.number}{copy}"


def where_words(where: Optional[MeetingPlace]) -> str:
    """Where the names of a short meet; labels say it, else it is where to look."""
    if not where:
        return ""
    more = f", and in {counted(where.more, 'more place')}" if where.more else ""
    return f"{'' if where.is_labelled else ', it seems'} on {copper_words(where.place)}{more}"


def touch_words(touch: Touch) -> str:
    commands = " and ".join(dict.fromkeys(map(source_words, touch.sources)))
    return f"{commands} at {touch.layer}, {spot_words(touch.place)}"


# ---- what is so


def extent(pins: Iterable[Pin]) -> str:
    """Which pins of a name are on a part, those of parts of the board before vias."""
    return spoken(map(pin_words, sorted(dict.fromkeys(pins), key=lambda pin: pin.record > 0)), FEW)


def not_joined(fact: facts.NotJoined) -> str:
    away = "" if fact.away is None else f", {at_most(fact.away)} mm away" if fact.away else ", at the same place"
    here, there = map(extent, fact.pins)
    return (
        f"{point_words(fact.here)} is not joined to {point_words(fact.there)}{away}; {net_name(fact.name)} is in"
        f" {fact.parts} parts, here {here}, there {there}"
    )


def tie_not_made(fact: facts.TieNotMade) -> str:
    one, other = fact.names
    here, there = map(point_words, fact.nearest)
    return (
        f"{one} and {other} are declared to be tied ({fact.source}) and no copper joins them: {here} and {there} are"
        " nearest"
    )


def names_meet(fact: facts.NamesMeet) -> str:
    sides = ["=".join(map(net_name, names)) for names in fact.sides]
    pins = [f"{net_name(name)} has {point_words(point)}" for name, point in fact.points]
    return f"{spoken(sides)} are joined{where_words(fact.where)}: {spoken(pins, FEW)}"


def no_copper(fact: facts.NoCopper) -> str:
    name, point = fact.point
    of = "of no net" if name == NO_NET else f"of {name}"
    return f"no copper of {fact.file} lies under {point_words(point)}, {of}"


def cutter_words(hole: Optional[HoleAt]) -> str:
    if hole is None:
        return "the board's edge"
    what = f"the unplated {'slot' if hole.is_slot else 'hole'} of {millimetres(hole.diameter)} mm"
    return f"{what} at {spot_words(hole.place)} ({hole.file} line {hole.line})"


def parted_when_made(fact: facts.PartedWhenMade) -> str:
    """A net that is parted, or a point that loses its copper."""
    name, is_one = net_name(fact.name), len(fact.cutters) == 1
    what = spoken(map(cutter_words, fact.cutters), FEW) if fact.cutters else "what is taken away"
    verb = "part" if len(fact.points) > 1 else "take"
    verb = f"may {verb}" if not fact.is_certain else f"{verb}s" if is_one else verb
    if len(fact.points) > 1:
        return f"{what} {verb} {name}: {points_words(fact.points)} are not joined on the board as it is made"
    return f"{what} {verb} the copper from under {point_words(fact.points[0])}, of {name}, when the board is made"


def outside_edge(fact: facts.OutsideEdge) -> str:
    return f"{point_words(fact.point.point)}, of {net_name(fact.point.name)}, lies outside the board's edge"


def neck(fact: facts.Neck) -> str:
    than = f"less than {millimetres(fact.width)} mm wide" if fact.width else "joined by copper that only touches"
    if len(fact.points) == 1:
        return f"{net_name(fact.name)} is {than} at {point_words(fact.points[0])}"
    word = "is" if fact.is_certain else "may be"
    return f"{net_name(fact.name)} {word} {than} between {points_words(fact.points)}, near {copper_words(fact.place)}"


# ---- copper that is too close


def side_words(side: NetSide) -> str:
    if side.net is None:
        return LEFT_OUT
    return spoken(side.names, FEW_NAMES) if side.names else f"net {side.net} (without a name)"


def sides_words(fact: facts.TooClose) -> str:
    if all(side.net is None for side in fact.sides):
        return "two parts of " + LEFT_OUT
    return spoken(map(side_words, fact.sides))


def apart_words(apart: Apart) -> str:
    if apart.is_exact:
        return f"are {millimetres(apart.least or 0)} mm apart"
    if apart.may_be_joined:
        most = apart.most
        return (
            "are joined, or"
            f" {'apart, perhaps by nothing' if most is None else f'at most {millimetres(most)} mm apart'},"
        )
    rows = (("at least", apart.least), ("at most", apart.most))
    return f"are {' and '.join(f'{word} {millimetres(u)}' for word, u in rows if u is not None)} mm apart"


def too_close(fact: facts.TooClose) -> str:
    near = f"; near {spoken(map(pin_words, fact.near))}" if fact.near else ""
    sources = spoken(map(source_words, fact.sources))
    return f"{sides_words(fact)} {apart_words(fact.apart)} on {copper_words(fact.place)}: {sources}{near}"


# ---- what two boards say of one between them


def by_touches(touches: Tuple[Touch, ...]) -> str:
    return f", by {spoken(map(touch_words, touches))}" if touches else ""


def in_parts(fact: InParts) -> str:
    parts, firsts = counted(len(fact.firsts), "part"), points_words(fact.firsts)
    if fact.is_sure:
        return f"{fact.name} is in {parts}: {firsts} are not joined{by_touches(fact.touches)}"
    return f"{fact.name} may be in {parts}: {firsts} are joined {ABOVE_ALONE}{by_touches(fact.touches)}"


def tie_parted(fact: TieParted) -> str:
    how = "no copper joins them" if fact.is_sure else f"are joined {ABOVE_ALONE}"
    points = spoken(map(point_words, fact.points))
    return f"{spoken(fact.names)} are declared to be tied ({fact.source}) and {how}: {points}{by_touches(fact.touches)}"


def names_joined(fact: NamesJoined) -> str:
    points = spoken([f"{net_name(name)} at {point_words(point)}" for name, point in fact.points], FEW)
    above = "" if fact.is_sure else " " + ABOVE_ALONE
    return f"{points} are joined{where_words(fact.where)}{above}{by_touches(fact.touches)}"


def bare_below(fact: BareBelow) -> str:
    under = f"under {point_words(fact.point.point)}, of {fact.point.name}"
    return f"no copper lies {under}" if fact.is_sure else f"copper lies {under}, {ABOVE_ALONE}"


STATEMENTS: Dict[Any, Callable[[Any], str]] = {
    facts.NotJoined: not_joined,
    facts.TieNotMade: tie_not_made,
    facts.NamesMeet: names_meet,
    facts.NoCopper: no_copper,
    facts.PartedWhenMade: parted_when_made,
    facts.OutsideEdge: outside_edge,
    facts.Neck: neck,
    facts.TooClose: too_close,
    InParts: in_parts,
    TieParted: tie_parted,
    NamesJoined: names_joined,
    BareBelow: bare_below,
}


# ---- where to look


def no_common_layer(_: facts.NoCommonLayer) -> str:
    return "the two parts have no copper on one layer; look for a hole that should join them."


def hole_missing(fact: facts.HoleMissing) -> str:
    return f"a hole is missing where both parts have copper, on {copper_words(fact.place)} and on {fact.below}."


def comes_nearest(fact: facts.ComesNearest) -> str:
    return f"their copper comes nearest, {at_most(fact.distance)} mm, on {copper_words(fact.place)}."


def all_labelled(fact: facts.AllLabelled) -> str:
    return f"All its labelled copper says {fact.name}: the netlist's names differ from the files' own."


def meets_at(fact: facts.MeetsAt) -> str:
    one, other = fact.names
    first, second = map(source_words, fact.ends)
    if not fact.between:
        return f"{first} of {one} touches {second} of {other} on {copper_words(fact.place)}."
    ends = f", between {first} and {second}" if first != second else ""
    sources = spoken(map(source_words, fact.between), FEW)
    return f"{one} and {other} meet on {copper_words(fact.place)}; {sources} could belong to either{ends}."


def more_places(fact: facts.MorePlaces) -> str:
    return f"They meet in {counted(fact.more, 'more place')}."


def tie_would_declare(fact: facts.TieWouldDeclare) -> str:
    link = "=" if fact.names.startswith("-") else " "  # so that a name as -12V is taken for no option
    option = f"--tie{link}{shlex.quote(fact.names)}"
    return f"both have pins of {fact.component} there; where it is to join them, {option} declares it."


def reaches(fact: facts.Reaches) -> str:
    return f"{net_name(fact.name)} reaches the others over {spoken(map(source_words, fact.over), FEW_SOURCES)}."


def labels_change(fact: facts.LabelsChange) -> str:
    (one, other), (first, second) = fact.labels, map(source_words, fact.ends)
    return f"{first} of {one} reaches {second} of {other}."


def short_name(fact: facts.ShortName) -> str:
    return f"The netlist has {fact.short} for {fact.whole}."


CLUES: Dict[Any, Callable[[Any], str]] = {
    facts.NoCommonLayer: no_common_layer,
    facts.HoleMissing: hole_missing,
    facts.ComesNearest: comes_nearest,
    facts.AllLabelled: all_labelled,
    facts.MeetsAt: meets_at,
    facts.MorePlaces: more_places,
    facts.TieWouldDeclare: tie_would_declare,
    facts.Reaches: reaches,
    facts.LabelsChange: labels_change,
    facts.ShortName: short_name,
}


# ---- a finding


def statement(what: Fact) -> str:
    """What is so, without its full stop."""
    return STATEMENTS[type(what)](what)


def lead(what: Lead) -> str:
    return CLUES[type(what)](what)


def words(finding: Finding) -> str:
    return statement(finding.what) + "."


def clue_words(clue: Clue) -> str:
    return LEADS[clue.why] + lead(clue.what)


def hints(finding: Finding) -> List[str]:
    """Where to look, as it is told."""
    return list(map(clue_words, finding.clues))


def sentence(finding: Finding) -> str:
    return " ".join([words(finding), *hints(finding)])


def flood_words(flood: facts.Flood) -> str:
    """What is told where most points have no copper, so that what follows has one cause."""
    return (
        f"{flood.bare} of {flood.points} test points lie beside the copper. That has one cause: the netlist and the "
        "copper count from other origins or in other units, layers are in another order, or the netlist is of another "
        "board. See to that first."
    )


def heading(finding: Finding) -> str:
    """The name under which a finding is listed."""
    return sides_words(finding.what) if isinstance(finding.what, facts.TooClose) else finding.name
