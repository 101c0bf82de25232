"""Changes of files in words, to stand behind `with`."""
from typing import Dict, List, Tuple

from boardnet_show.base.wording import counted, millimetres, spoken
from boardnet_show.fitting import access_codes
from boardnet_show.fitting.changes import (
    POINTS,
    SAID,
    Change,
    CodesRead,
    CopperPlaced,
    DecimalsRead,
    DigitsRead,
    DrillsPlaced,
    LayersOrdered,
    NetlistPlaced,
)
from boardnet_show.fitting.placement import FORMS
from boardnet_show.formats.units import UNIT_WORDS

CODES = {
    access_codes.HOLES: (
        "the first layer of the hole at their place (through records, 317, whose hole does not reach the layer of their"
        " code; KiCad writes such codes for buried vias)"
    ),
    access_codes.BOTTOM: (
        "the bottom, {last:02d} (surface records, 327, of layer 02, and no part's pad is on an inner layer; pcb-rnd"
        " writes 02 for every bottom)"
    ),
}


def placed(turn: int, by: Tuple[int, int]) -> str:
    """A turn and a shift."""
    words = [FORMS[turn][0]] if turn else []
    words += [f"moved by ({millimetres(by[0])}, {millimetres(by[1])}) mm"] if tuple(by) != (0, 0) else []
    return ", ".join(words)


def netlist_placed(change: NetlistPlaced) -> str:
    unit = [f"read in the other unit ({UNIT_WORDS[change.unit]})"] if change.unit else []
    return ", ".join(filter(None, [*unit, placed(change.turn, change.by)]))


def drill_files(change: DrillsPlaced) -> str:
    if change.are_all:
        return "the drills"
    return f"the drill file{'s' if len(change.files) > 1 else ''} {spoken(change.files)}"


def layers_ordered(change: LayersOrdered) -> str:
    order = f"the layers in the order {', '.join(change.order)}"
    if change.why != POINTS:
        return f"{order}, as the files say" if change.why == SAID else order
    cannot = "; the netlist cannot tell the order of the inner layers" if change.is_inner_unknown else ""
    return f"{order} (where surface points have a pad of their own{cannot})"


def reading(digits: DigitsRead) -> Tuple[str, str]:
    """How numbers are read, and which zeros are left out."""
    if digits.width:
        return f"{digits.width - digits.decimals} digits before the point", "trailing zeros left out"
    return f"{digits.decimals} implied decimals", "leading zeros left out or none"


def decimals_read(change: DecimalsRead) -> str:
    """3 implied decimals in a.drl and b.drl (..)."""
    named: Dict[Tuple[str, str], List[DigitsRead]] = {}
    for it in change.files:
        named.setdefault(reading(it), []).append(it)
    parts = [
        f"{words} in {spoken(it.file for it in group)} ({zeros}{on_points(group)})"
        for (words, zeros), group in named.items()
    ]
    return " and ".join(parts)


def on_points(group: List[DigitsRead]) -> str:
    if any(it.holes is None for it in group):
        return ""
    return f"; {sum(it.on for it in group)} of {sum(it.holes or 0 for it in group)} holes on a through point"


def codes_read(change: CodesRead) -> str:
    return (
        f"the access code{'s' if change.records > 1 else ''} of {counted(change.records, 'record')} read as"
        f" {CODES[change.rule].format(last=change.last)}"
    )


def words(change: Change) -> str:
    if isinstance(change, NetlistPlaced):
        return f"the netlist {netlist_placed(change)}"
    if isinstance(change, DrillsPlaced):
        return f"{drill_files(change)} {placed(change.turn, change.by)}"
    if isinstance(change, CopperPlaced):
        return f"the copper {placed(change.turn, change.by)}"
    if isinstance(change, LayersOrdered):
        return layers_ordered(change)
    if isinstance(change, DecimalsRead):
        return decimals_read(change)
    return codes_read(change)
