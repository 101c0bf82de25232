"""How a netlist is read that does not say it: its unit, by its points on pads, and a code over the board's layers."""
from typing import Callable, List, Optional, Sequence, Tuple

from boardnet_show.base.wording import counted
from boardnet_show.formats import ipc356
from boardnet_show.formats.units import CODES, UNIT_WORDS
from boardnet_show.intake.mends import netlist_forms, netlist_mends

from .pad_middles import Middles

# Words behind UNITS that leave the unit open: to the standard these are inches, to some tools millimetres.
OPEN: Tuple[List[bytes], ...] = ([], [b"CUST"], [b"CUST", b"2"])
IsClear = Callable[[int, int, Sequence[int]], bool]


def has_open_unit(data: bytes) -> bool:
    """Whether a netlist has records, and does not say the unit in a word that `check` takes."""
    said = [words[1:] for words in ipc356.parameters(data) if words[:1] == [b"UNITS"]]
    return bool(ipc356.ANY_RECORD.search(data)) and (not said or len(said) == 1 and said[0] in OPEN)


def with_unit(data: bytes, unit: int) -> bytes:
    """The netlist with a line of the unit: in the place of the one that leaves it open, of another line before the
    records that says nothing of them, or before all lines."""
    lines, said = data.split(b"\n"), ipc356.units_line(unit).encode()
    first = next(at for at, line in enumerate(lines) if ipc356.is_test(line))
    open_ones = [at for at in range(len(lines)) if lines[at][:1] == b"P" and lines[at][1:].split()[:1] == [b"UNITS"]]
    pin = ipc356.PIN_COMMENT.encode()
    notes = [at for at in range(first) if lines[at][:1] == b"C" and not lines[at].startswith(pin)]
    settings = [at for at in range(first) if lines[at][:1] == b"P" and not ipc356.ALIAS_LINE.match(lines[at])]
    places = [at for at in (open_ones or notes or settings) if at < first]
    if not places:
        return b"\n".join([said, *lines])
    end = b"\r" if lines[places[0]].endswith(b"\r") else b""
    return b"\n".join([*lines[: places[0]], said + end, *lines[places[0] + 1 :]])


def unit_reading(data: bytes, pads: Middles, is_clear: IsClear) -> Optional[Tuple[str, bytes]]:
    """The unit by which the points lie on pads, in words, and the netlist with it; None where no unit is clear."""
    spots = sorted({(it.x, it.y) for it in ipc356.places(data)})
    counts = {unit: pads.count([(x * unit, y * unit) for x, y in spots], unit) for unit in UNIT_WORDS}
    for unit, count in counts.items():
        others = [many for other, many in counts.items() if other != unit]
        if is_clear(count, len(spots), others):
            words = (
                f"as a netlist in units of {UNIT_WORDS[unit]} (CUST {CODES[unit]}), which it does not say: "
                f"{count} of {counted(len(spots), 'point')} lie on pads, in the other unit {max(others)}"
            )
            return words, with_unit(data, unit)
    return None


def layer_reading(data: bytes, layers: int) -> Optional[Tuple[str, bytes]]:
    """The one code over the board's layers read as the last, in words, and the netlist with it."""
    codes = netlist_forms.codes_over(data, layers)
    if len(codes) != 1 or codes[0] not in {it.access for it in ipc356.places(data) if not it.is_through}:
        return None
    copy, _ = netlist_mends.mended(data, layers, codes[0])
    words = (
        f"as a netlist whose code A{codes[0]:02d} is the last layer, {layers:02d}: no record has that, and no other is "
        f"over the {counted(layers, 'layer')} of the files; are these all layers of the board?"
    )
    return words, copy


def reading(data: bytes, layers: int, pads: Callable[[], Middles], is_clear: IsClear) -> Optional[Tuple[str, bytes]]:
    """What is taken of a netlist as it is mended, in words, with the copy, or None."""
    told: List[str] = []
    if has_open_unit(data):
        found = unit_reading(data, pads(), is_clear)
        if found is None:
            return None
        told, data = [*told, found[0]], found[1]
    last = layer_reading(data, layers)
    if last:
        told, data = [*told, last[0]], last[1]
    return ("; and ".join(told), data) if told else None
