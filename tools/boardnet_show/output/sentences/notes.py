"""Notes in words, from what they say as values. A note that is a text already is what a program or a refusal said."""
from typing import Any, Callable, Dict

from boardnet_show.base.facts import UnnamedJoined
from boardnet_show.base.wording import counted, millimetres, spoken
from boardnet_show.findings import notes

from . import changes
from .findings import (
    copper_words,
    cutter_words,
    heading,
    net_name,
    pin_words,
    points_words,
    sentence,
    source_words,
    spot_words,
)

Words = Callable[[Any], str]
EDGE = "the board's edge"


def unnamed_joined(note: UnnamedJoined) -> str:
    more = f"; so are those of {counted(note.more, 'more net')}" if note.more else ""
    return (
        f"records without net (N/C) are joined: {'; '.join(map(points_words, note.groups))}{more}. Each such pin should"
        " stand alone; a pad and its via may be two records"
    )


# ---- the board as it is made


def harmless_holes(note: notes.HarmlessHoles) -> str:
    cuts, parts = ("cuts", "parts") if note.number == 1 else ("cut", "part")
    more = f" and {note.number - 1} more" if note.number > 1 else ""
    return (
        f"{counted(note.number, 'unplated hole')} {cuts} copper and {parts} nothing: {cutter_words(note.first)}{more}"
    )


def thin_join(note: notes.ThinJoin) -> str:
    also = f", and of {counted(note.more, 'more net')}" if note.more else ""
    return (
        f"a join of no width: {points_words(note.points)}, of {net_name(note.name)}{also}, are joined by copper that"
        " only touches in single places or along lines; --necks 0 tells where"
    )


def cuts_not_asked(note: notes.CutsNotAsked) -> str:
    holes = [counted(note.holes, "unplated hole")] if note.holes is not None else []
    what = " and ".join(holes + ([EDGE] if note.has_edge else []))
    return f"not looked at, as --no-cuts asks: the copper that {what} would take away"


def holes_not_read(note: notes.HolesNotRead) -> str:
    return f"{note.file}: its unplated holes are not read, so nothing is said of what they cut"


def edge_not_known(note: notes.EdgeNotKnown) -> str:
    return f"{EDGE} is not known, so nothing is said of copper outside it: {note.why}"


def loss_not_known(note: notes.LossNotKnown) -> str:
    return f"what unplated holes and {EDGE} take away is not known: {note.why}"


# ---- holes and copper by the netlist


def plated_word(is_plated: bool) -> str:
    return "plated" if is_plated else "not plated"


def why_wrong(why: Any) -> str:
    if why is None:
        return "no drill file has a hole there"
    source = source_words(why.source)
    if isinstance(why, notes.PlatedAs):
        return f"it is to be {plated_word(not why.plated)}, and {source} has one that is {plated_word(why.plated)}"
    return f"it is to be {millimetres(why.wanted)} mm wide, and that of {source} is {millimetres(why.diameter)} mm"


def wrong_hole(note: notes.WrongHole) -> str:
    return f"the hole of {pin_words(note.pin)}, of {note.name}, line {note.line} of the netlist: {why_wrong(note.why)}"


def unnamed_holes(note: notes.UnnamedHoles) -> str:
    more = ", .." if note.number > len(note.firsts) else ""
    return (
        f"{counted(note.number, 'plated hole')} that no record names: {', '.join(map(source_words, note.firsts))}{more}"
    )


def floating_copper(note: notes.FloatingCopper) -> str:
    places = ", ".join(f"{layer} at {spot_words(middle)}" for layer, middle in note.largest)
    return f"{counted(note.number, 'part')} of copper without a test point and a hole, the largest on {places}"


def larger_holes(note: notes.LargerHoles) -> str:
    firsts = ", ".join(f"{source_words(source)} on {layer}" for source, layer in note.firsts)
    holes = counted(note.number, "plated hole")
    return f"{holes} larger than the copper that it stands in, which the barrel joins and nothing cuts: {firsts}"


# ---- gaps, and what is said of parts of the answer


def gap_rule(note: notes.GapRule) -> str:
    """What is counted, and what the program says beside it."""
    rule = (
        f"gaps: two nets on a layer whose copper is closer than {millimetres(note.under)} mm; exactly that is no gap"
        " here"
    )
    if note.listed is None:
        return rule
    is_even = note.listed > note.counted and note.under % 10 == 0
    even = f", of which {note.listed - note.counted} that are exactly so far" if is_even else ""
    return f"{rule}. The program's `gaps` lists what is at most that far apart: {counted(note.listed, 'pair')}{even}"


def not_known(note: notes.NotKnown) -> str:
    return f"{note.what} are not known: {note.why}"


def with_possible(words: str, possible: int) -> str:
    return words + (f" and {counted(possible, 'possible one')}" if possible else "")


def gaps_counted(note: notes.GapsCounted) -> str:
    gaps = counted(note.certain, "gap") if note.certain else "no gap"
    return with_possible(f"{gaps} under {millimetres(note.under)} mm", note.possible)


def necks_counted(note: notes.NecksCounted) -> str:
    than = f"under {millimetres(note.under)} mm" if note.under else "of no width"
    necks = counted(note.certain, "neck") if note.certain else "no neck"
    return with_possible(f"{necks} {than}", note.possible)


def made_counted(note: notes.MadeCounted) -> str:
    rows = (
        (note.cuts, "cut", "cuts"),
        (note.outside, "point or net outside the edge", "points or nets outside the edge"),
        (note.possible, "possible cut", "possible cuts"),
    )
    return f"as it is made, {spoken([counted(count, one, many) for count, one, many in rows if count])}"


def some_waived(note: notes.SomeWaived) -> str:
    told = f"{note.waived} of them waived" if note.left else "all waived" if note.waived > 1 else "waived"
    return f"{words(note.said)}, {told}"


def holes_compared(note: notes.HolesCompared) -> str:
    wrong = counted(note.wrong, "record")
    return f"{wrong} of holes that no drill file has so" if note.wrong else "each record of a hole has it"


def holes_not_compared(_: notes.HolesNotCompared) -> str:
    return "holes and copper are not compared with the netlist, since they are not known"


# ---- the comparison with another board


def there_words(there: Any) -> str:
    """What is told of the other board, without a full stop."""
    if there is None:
        return ""
    if isinstance(there, notes.NearThere):
        return f"there {source_words(there.source)} is near that place, {copper_words(there.place)}"
    if isinstance(there, notes.HasIt):
        return f"there {source_words(there.source)} has it"
    one, other = map(source_words, there.sources)
    distance = millimetres(there.distance)
    return f"there they are {distance} mm apart on {copper_words(there.place)}, between {one} and {other}"


def here_words(note: notes.Difference) -> str:
    return f"{heading(note.finding)}: {sentence(note.finding)}"


def difference(note: notes.Difference) -> str:
    there = there_words(note.there)
    return here_words(note) + (f" {there[0].upper()}{there[1:]}." if there else "")


def other_placed(note: notes.OtherPlaced) -> str:
    return f"the other board {changes.netlist_placed(note.change)}{note.setting}"


def likened_line(note: notes.Likened) -> str:
    rows = ((note.parted, "parted net"), (note.joined, "joined net"), (note.missing, "missing pad"))
    counts = ", ".join(counted(count, word) for count, word in rows if count)
    line = counts or f"joins what {'it' if note.is_whole else 'its sure copper'} joins"
    return line + (f"; not compared: {note.untouched}" if note.untouched else "")


def likened(note: notes.Likened) -> str:
    return f"like {note.path}: {likened_line(note)}"


def not_likened(note: notes.NotLikened) -> str:
    return f"not compared with {note.path}: {note.why}"


def no_tester(note: notes.NoTester) -> str:
    if note.tester is None:
        return "no netlist for a tester"
    from . import testers  # few boards have one

    return "; ".join(testers.lines(note.tester))


WORDS: Dict[Any, Words] = {
    UnnamedJoined: unnamed_joined,
    notes.HarmlessHoles: harmless_holes,
    notes.ThinJoin: thin_join,
    notes.CutsNotAsked: cuts_not_asked,
    notes.HolesNotRead: holes_not_read,
    notes.EdgeNotKnown: edge_not_known,
    notes.LossNotKnown: loss_not_known,
    notes.WrongHole: wrong_hole,
    notes.UnnamedHoles: unnamed_holes,
    notes.FloatingCopper: floating_copper,
    notes.LargerHoles: larger_holes,
    notes.GapRule: gap_rule,
    notes.NotKnown: not_known,
    notes.GapsCounted: gaps_counted,
    notes.NecksCounted: necks_counted,
    notes.MadeCounted: made_counted,
    notes.SomeWaived: some_waived,
    notes.HolesCompared: holes_compared,
    notes.HolesNotCompared: holes_not_compared,
    notes.Difference: difference,
    notes.OtherPlaced: other_placed,
    notes.Likened: likened,
    notes.NotLikened: not_likened,
    notes.NoTester: no_tester,
}


def words(note: Any) -> str:
    return note if isinstance(note, str) else WORDS[type(note)](note)
