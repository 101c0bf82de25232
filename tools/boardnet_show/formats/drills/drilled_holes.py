"""The holes of a drill file at the lines that a report names.

A drill file is only walked: unit, tools, and places, of which a missing coordinate stays. No modes and no conditions:
`check` has judged them.
"""
from decimal import Decimal, InvalidOperation
from typing import AbstractSet, Dict, List, Optional, Tuple

from boardnet_show.base.statuses import BadCopper
from boardnet_show.formats.units import MM
from boardnet_show.geometry.shapes import Shapes

from .drill_lines import Hit, Move, Pick, Place, Record, Rout, Tool, Unit, lines

XY = Tuple[int, int]


class Drill:
    """Walks a drill file, and adds a hole where the report says that a line makes one."""

    def __init__(self, shapes: Shapes, wanted: AbstractSet[int]) -> None:
        self.shapes, self.wanted = shapes, wanted
        self.unit = MM
        self.tools: Dict[int, int] = {}
        self.tool: Optional[int] = None
        self.at: XY = (0, 0)

    def line(self, number: int, record: Record) -> None:
        if isinstance(record, Hit):
            self.hole(number, [self.to(place) for place in record.places])
        elif isinstance(record, Rout):
            # A rout goes on from where the tool is.
            self.hole(number, [self.at, self.to(record.place)])
        elif isinstance(record, Move):
            self.to(record.place)
        elif isinstance(record, Pick):
            self.tool = record.number
        elif isinstance(record, Tool):
            self.tools[record.number] = self.length(record.sizes()[0])
        elif isinstance(record, Unit):
            self.unit = record.unit

    def hole(self, number: int, places: List[XY]) -> None:
        if number in self.wanted:
            self.shapes.add(self.tools[self.tool or 0] // 2, places if places[0] != places[-1] else places[:1])

    def length(self, number: bytes) -> int:
        return int(Decimal(number.decode()) * self.unit)

    def to(self, place: Place) -> XY:
        x, y = (old if text is None else self.length(text) for text, old in zip(place, self.at))
        self.at = x, y
        return self.at


def add_drilled(shapes: Shapes, data: bytes, wanted: AbstractSet[int]) -> None:
    """Adds the holes of a drill file at the lines that the report names."""
    drill = Drill(shapes, wanted)
    try:
        for line in lines(data):
            drill.line(line.number, line.record())
    except KeyError:
        raise BadCopper("a hole of a drill file has no tool") from None
    except (InvalidOperation, IndexError):
        raise BadCopper("a drill file has a place or a tool that is none") from None
