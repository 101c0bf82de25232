"""A netlist for a tester in words: what it has, what it lacks, and what `check` says of it."""
from functools import partial
from typing import Iterator, List

from boardnet_show.base.wording import at_most, counted, millimetres, spoken
from boardnet_show.formats import ipc356
from boardnet_show.formats.units import UNIT_WORDS
from boardnet_show.netlists.pad_list import Place
from boardnet_show.netlists.tester import Confirmed, Tester
from boardnet_show.netlists.tester_records import Netlist, Row

from .findings import source_words, spot_words

FEW = 6  # nets and pads that are named in a line
LOWER = "it is of the least copper that the files can mean: what else they may mean has no record"


def pad_words(place: Place) -> str:
    """A pad by its pin, or by what it is and where."""
    if place.part:
        return f"{place.part} pin {place.pin}" if place.pin else str(place.part)
    return f"a {'hole' if place.hole is not None else 'pad'} at {spot_words(place.middle)}"


def row_words(row: Row) -> str:
    return pad_words(row.place)


def place_words(its: Netlist, row: Row) -> str:
    return f"{its.names.of[row.place.net]} at {spot_words(row.place.middle)}"


def net_words(its: Netlist, net: int) -> str:
    """A net by its name and where its first piece is from."""
    return f"{its.names.of[net]} ({source_words(its.board.source(its.board.pieces_of[net][0]))})"


def untouched(its: Netlist) -> str:
    """What has no record, in few words."""
    none, areas, pads = its.without(), its.areas(), len(its.unplaced)
    told = [f"{counted(len(none), 'net')} without a record, first {net_words(its, none[0])}"] if none else []
    told += [f"{counted(areas, 'area')} that no file calls a pad"] if areas else []
    told += [f"{counted(pads, 'pad')} without a place on the grid"] if pads else []
    return ", ".join(told)


def netlist_lines(its: Netlist) -> Iterator[str]:
    holes = sum(row.place.hole is not None for row in its.rows)
    records = f"{counted(len(its.rows), 'record')} ({holes} of plated holes) of {counted(len(its.nets()), 'net')}"
    yield f"{records}, in units of {UNIT_WORDS[its.unit]}"
    yield from besides(its)
    near = [row.away(its.unit) for row in its.rows if row.off(its.unit) and not row.is_moved(its.unit)]
    if near:
        most = millimetres(-(-max(near) // 100) * 100)
        yield f"{counted(len(near), 'place')} rounded to that grid within their pads, by at most {most} mm"
    moved = [row for row in its.rows if row.is_moved(its.unit)]
    if moved:
        pads = spoken((f"{row_words(row)} by {at_most(row.away(its.unit))} mm" for row in moved), FEW)
        yield f"{counted(len(moved), 'place')} farther from the middle of the pad, so that copper is there: {pads}"
    over = [row for row in its.rows if row.is_over(its.unit, its.drill(row.place))]
    if over:
        size = f"a size of {ipc356.MOST_SIZE}, the most that its columns hold"
        yield f"{counted(len(over), 'record')} with {size}: {spoken((row_words(row) for row in over), FEW)}"
    yield from wanting(its)


def besides(its: Netlist) -> Iterator[str]:
    """What the netlist has besides."""
    tooling = its.tooling
    if tooling.holes or tooling.slots:
        slots = f"; {counted(tooling.slots, 'unplated slot')} without one" if tooling.slots else ""
        yield f"{counted(len(tooling.holes), 'record')} (367) of unplated holes{slots}"
    if tooling.unread:
        yield f"{counted(len(tooling.unread), 'file')} of unplated holes not read: {spoken(tooling.unread)}"
    if its.adjacent is not None:
        yield f"{counted(len(set(its.adjacent)), 'pair')} of nets that are close to each other (379)"
    doubt = [row for row in its.rows if len(row.place.masks) > 1]
    if doubt:
        pads = spoken((row_words(row) for row in doubt), FEW)
        yield f"{counted(len(doubt), 'record')} without a mask code, since the netlist has several: {pads}"


def wanting(its: Netlist) -> Iterator[str]:
    """Nets that a tester cannot touch, or not at a pad."""
    outer = (0, 1, its.board.manifest.layers)
    buried = [row for row in its.rows if row.access not in outer]
    if buried:
        places = spoken(map(partial(place_words, its), buried), FEW)
        yield f"{counted(len(buried), 'record')} of buried holes, which no prober reaches: {places}"
    pads = {row.place.net for row in its.rows if not row.place.is_via or row.place.part}
    middles = sorted(its.nets() - pads)
    if middles:
        nets = spoken(map(partial(net_words, its), middles), FEW)
        yield f"{counted(len(middles), 'net')} with mid-points (vias) alone, and no pad: {nets}"
    none = its.without()
    if none:
        yield f"{counted(len(none), 'net')} without a record: {spoken(map(partial(net_words, its), none), FEW)}"
    if its.unplaced:
        unplaced = spoken(map(pad_words, its.unplaced), FEW)
        yield f"{counted(len(its.unplaced), 'pad')} without a place on the grid: {unplaced}"
    several, joined = its.names.several, its.names.joined
    if several:
        yield f"{counted(len(several), 'name')} of several nets, which are called NET<n>: {spoken(several, FEW)}"
    if joined:
        names = spoken((spoken(names, 3) for names in joined), FEW)
        yield f"{counted(len(joined), 'net')} of several names, called NET<n>: {names}"


# ---- what is said of it


def confirmed_words(said: Confirmed) -> str:
    audit = f" ({said.audit})" if said.audit else ""
    return f"`check` with it says: {said.check}{audit}" if said.is_asked else said.check


def lines(tester: Tester) -> List[str]:
    """All that is told of it."""
    if tester.netlist is None or tester.below is None:
        return [f"no netlist for a tester: {tester.why}"]
    if tester.text is None:
        return [f"no netlist for a tester is written: {confirmed_words(tester.below)}"]
    first, *rest = netlist_lines(tester.netlist)
    told = [f"{first}; {confirmed_words(tester.below)}", *rest]
    if tester.above:
        meaning = "so the board itself agrees" if tester.is_whole else "so some of its nets may be one on the board"
        told += [LOWER, f"on the most copper that the files can mean {confirmed_words(tester.above)}, {meaning}"]
    return told
