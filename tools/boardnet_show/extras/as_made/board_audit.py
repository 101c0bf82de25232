"""Holes by the netlist, and copper that nothing names: what a yes on the netlist does not say.

A record 317 asks for no hole: where its net is joined elsewhere, a hole that is missing is no finding of `check`. Here
each such record is compared with the holes at its place, and each plated hole with the records. Floating copper has no
test point and no hole.
"""
from collections import defaultdict
from typing import Any, Dict, Iterator, List, NamedTuple, Optional, Set, Tuple, Union

from boardnet_show.base.facts import Pin, Source
from boardnet_show.base.statuses import BadCopper
from boardnet_show.findings.besides import BOARD_AUDIT, Detail, Requested, lacking, outcome
from boardnet_show.findings.board import Board
from boardnet_show.findings.notes import (
    FloatingCopper,
    HolesCompared,
    HolesNotCompared,
    LargerHoles,
    PlatedAs,
    UnnamedHoles,
    WideAs,
    WrongHole,
)
from boardnet_show.formats import ipc356
from boardnet_show.formats.ipc356 import HoleColumns
from boardnet_show.intake import unplated_holes
from boardnet_show.judging import board_copper
from boardnet_show.judging.judged import Judged

from .hole_pads import larger_than_pads

FEW = 5
Spot = Tuple[int, int]


class Hole(NamedTuple):
    """A hole or slot of a drill file: where it begins and ends, its diameter in u, and where it is from."""

    start: Spot
    end: Spot
    diameter: int
    plated: bool
    source: Source

    def has(self, spot: Spot, by: int) -> bool:
        """Whether a place is at most so far from its middle or one of its ends."""
        middle = (self.start[0] + self.end[0]) // 2, (self.start[1] + self.end[1]) // 2
        return any(max(abs(x - spot[0]), abs(y - spot[1])) <= by for x, y in (self.start, middle, self.end))


class Holes:
    """All holes of a board, found by their places."""

    def __init__(self, holes: List[Hole], cell: int) -> None:
        self.holes, self.cell = holes, cell
        self.cells: Dict[Spot, Set[int]] = defaultdict(set)
        for number, hole in enumerate(holes):
            for x, y in (
                hole.start,
                hole.end,
                ((hole.start[0] + hole.end[0]) // 2, (hole.start[1] + hole.end[1]) // 2),
            ):
                self.cells[x // cell, y // cell].add(number)

    def at(self, spot: Spot, by: int) -> List[int]:
        """The holes at a place."""
        x, y = spot[0] // self.cell, spot[1] // self.cell
        near = {number for i in (-1, 0, 1) for j in (-1, 0, 1) for number in self.cells.get((x + i, y + j), ())}
        return sorted(number for number in near if self.holes[number].has(spot, by))


def plated(board: Board) -> Iterator[Hole]:
    """The plated holes that the report has."""
    for piece, (file, line, *_) in enumerate(board.report.sources):
        if board.manifest.is_drilled(file) and board.shapes:
            a, b, radius = board.shapes.capsule(piece)
            yield Hole(a, b, 2 * radius, True, Source(board.manifest.files[file], line, is_line=True))


def unplated(judged: Judged) -> Iterator[Hole]:
    for its in unplated_holes.of_package(judged.package):
        for piece, line in enumerate(its.lines):
            a, b, radius = its.shapes.capsule(piece)
            yield Hole(a, b, 2 * radius, False, Source(its.file, line, is_line=True))


# ---- records


def wrong_of(columns: HoleColumns, holes: List[Hole], unit: int) -> Optional[Union[PlatedAs, WideAs]]:
    """What is wrong with the holes at a record's place, or None."""
    if columns.plated is not None and all(hole.plated != columns.plated for hole in holes):
        return PlatedAs(holes[0].plated, holes[0].source)
    wanted = columns.diameter and columns.diameter * unit
    if wanted and all(abs(hole.diameter - wanted) > unit for hole in holes):
        return WideAs(wanted, holes[0].source, holes[0].diameter)
    return None


def wrong_records(board: Board, holes: Holes, data: bytes, unit: int) -> Iterator[Tuple[int, WrongHole]]:
    """Each record of a hole that no drill file has so, with what is wrong."""
    lines = data.split(b"\n")
    for number, record in enumerate(board.records):
        if record.through and record.x is not None and record.y is not None:
            found = [holes.holes[its] for its in holes.at((record.x, record.y), 2 * unit)]
            why = wrong_of(ipc356.hole_of(lines[record.line - 1]), found, unit) if found else None
            if why or not found:
                is_named = record.component and record.pin
                pin = Pin(record.component, record.pin) if is_named else Pin(record=number + 1)
                yield number, WrongHole(pin, record.name, record.line, why)


def unnamed(board: Board, holes: Holes, unit: int) -> List[Hole]:
    """The plated holes that no record names."""
    named: Set[int] = set()
    for record in board.records:
        if record.x is not None and record.y is not None:
            named.update(holes.at((record.x, record.y), 2 * unit))
    return [hole for number, hole in enumerate(holes.holes) if hole.plated and number not in named]


# ---- copper


class Floating(NamedTuple):
    """A net without a test point and a hole: its layer, its box and how many pieces it has."""

    layer: int
    box: Tuple[int, int, int, int]
    pieces: int

    def size(self) -> int:
        return (self.box[2] - self.box[0]) * (self.box[3] - self.box[1])


def floating(board: Board) -> List[Floating]:
    """Copper without a test point and without a hole, the largest first."""
    joined = {net for *_, net in board.report.points}
    found = []
    for net, pieces in board.pieces_of.items():
        sources = [board.report.sources[piece] for piece in pieces]
        if net not in joined and board.shapes and not any(board.manifest.is_drilled(file) for file, *_ in sources):
            boxes = [board.shapes.box(piece) for piece in pieces]
            box = (*(min(its) for its in list(zip(*boxes))[:2]), *(max(its) for its in list(zip(*boxes))[2:]))
            found.append(Floating(sources[0][3], box, len(pieces)))
    return sorted(found, key=lambda its: (-its.size(), its.box))


def floating_notes(board: Board) -> List[FloatingCopper]:
    its = floating(board)
    middles = (((it.box[0] + it.box[2]) // 2, (it.box[1] + it.box[3]) // 2) for it in its)
    largest = tuple((board.manifest.layer_word(it.layer), middle) for it, middle in zip(its[:FEW], middles))
    return [FloatingCopper(len(its), largest)] if its else []


# ---- all


def details_of(board: Board, wrong: List[Tuple[int, WrongHole]]) -> Tuple[Detail, ...]:
    told = []
    for number, what in wrong:
        record = board.records[number]
        told.append((f"hole-{number + 1}", what, ((record.x or 0, record.y or 0, 1),)))
    return tuple(told)


def unnamed_notes(board: Board, holes: Holes, unit: int) -> List[UnnamedHoles]:
    its = unnamed(board, holes, unit)
    return [UnnamedHoles(len(its), tuple(hole.source for hole in its[:FEW]))] if its else []


def larger_notes(board: Board) -> List[LargerHoles]:
    """A note on plated holes that are larger than their pads."""
    its = list(larger_than_pads(board))
    firsts = tuple((board.source(it.piece), board.manifest.layer_word(it.layer)) for it in its[:FEW])
    return [LargerHoles(len(its), firsts)] if its else []


def with_copper(program: Any, judged: Judged, board: Board) -> Optional[Board]:
    """The board with its copper, as it was known already or is now; None where it cannot be known."""
    if board.shapes is not None:
        return board
    try:
        shapes = board_copper.shapes_of_judged(program, judged)
    except BadCopper:
        return None
    return Board(board.package, board.report, board.records, shapes, board.labels, board.ties)


def requested(program: Any, judged: Judged, seen: Board) -> Requested:
    """What the holes and the copper of a board say of its netlist."""
    program.progress.begin("comparing holes with the netlist")
    low = judged.package.between[1] if judged.package.between else judged
    board, data = with_copper(program, low, seen), low.package.read(low.package.manifest.netlist)
    unit = ipc356.unit_of(data)
    if board is None or unit is None:
        return Requested([lacking(BOARD_AUDIT, HolesNotCompared())])
    holes = Holes([*plated(board), *unplated(judged)], 8 * unit)
    wrong = list(wrong_records(board, holes, data, unit))
    notes = [*unnamed_notes(board, holes, unit), *floating_notes(board), *larger_notes(board)]
    said, details = HolesCompared(len(wrong)), details_of(board, wrong)
    return Requested([outcome(BOARD_AUDIT, len(wrong), 0, said, details)], notes=[*(what for _, what in wrong), *notes])
