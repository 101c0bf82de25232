"""Reads `flatten`'s normal form of a copper file into shapes.

It is read by one expression that knows nothing else and refuses the rest.
"""
import re
from decimal import Decimal
from typing import Dict, List

from boardnet_show.base.statuses import BadCopper
from boardnet_show.geometry.shapes import AREA, Shapes

from .gerber_lexer import NUMBERS, lines_of
from .units import MM

# Of the normal form: choices, strokes and small regions; a definition, and the other words; the corners of a region.
PIECES = re.compile(
    rb"(?:X-?[0-9]+Y-?[0-9]+D02\*\nX-?[0-9]+Y-?[0-9]+D01\*\n|D[0-9]+\*\n|"
    rb"G36\*\n(?:X-?[0-9]+Y-?[0-9]+D0[12]\*\n){1,40}G37\*\n){1,500}"
)
PIECE = re.compile(
    rb"X(-?[0-9]+)Y(-?[0-9]+)D02\*\nX(-?[0-9]+)Y(-?[0-9]+)D01\*\n|D([0-9]+)\*\n|" rb"G36\*\n([^G]+)G37\*\n"
)
PART = re.compile(rb"%ADD([0-9]+)C,([0-9.]+)\*%\n|(?:M02\*|%FSLAX47Y47\*%|%MOMM\*%)\n")
REGION, REGION_END = b"G36*\n", b"G37*\n"
NOT_NORMAL = "the flattened copper is not in its normal form"


class Flat:
    """Reads the normal form into shapes."""

    def __init__(self, shapes: Shapes) -> None:
        self.shapes, self.radius = shapes, 0
        self.diameters: Dict[bytes, int] = {}

    def read(self, text: bytes) -> None:
        at = 0
        while at < len(text):
            many = PIECES.match(text, at)
            if many:
                self.pieces(many[0])
                at = many.end()
            else:
                at = self.region(text, at + len(REGION)) if text.startswith(REGION, at) else self.part(text, at)

    def pieces(self, words: bytes) -> None:
        """Reads choices, strokes and small regions."""
        shapes = self.shapes
        xs: List[int] = []
        ys: List[int] = []
        radii: List[int] = []
        starts: List[int] = []
        first = len(shapes.x)
        for x, y, to_x, to_y, picked, corners in PIECE.findall(words):
            if picked:
                self.radius = self.diameters[picked] // 2
                continue
            if x:
                xs.append(int(x))
                ys.append(int(y))
                if x != to_x or y != to_y:
                    xs.append(int(to_x))
                    ys.append(int(to_y))
                radii.append(self.radius)
            else:
                around = numbers(corners)
                xs += around[-3:-2] + around[3:-3:3]  # the last corner is the first
                ys += around[-2:-1] + around[4:-3:3]
                radii.append(AREA)
            starts.append(first + len(xs))
        shapes.add_all(radii, starts, xs, ys)

    def part(self, text: bytes, at: int) -> int:
        """Reads what there is up to a place, which is returned."""
        found = PART.match(text, at)
        if not found:
            if text[at:].strip():
                raise BadCopper(NOT_NORMAL)
            return len(text)
        defined, size = found.groups()
        if defined:
            self.diameters[defined] = int(Decimal(size.decode()) * MM)
        return found.end()

    def region(self, text: bytes, at: int) -> int:
        end = text.find(REGION_END, at)
        corners = lines_of(text[at : end - 1], b"\n") if end >= 0 else None
        if not corners:
            raise BadCopper(NOT_NORMAL)
        xs, ys, _ = corners
        self.shapes.add_area(xs[-1:] + xs[1:-1], ys[-1:] + ys[1:-1])  # the last corner is the first
        return end + len(REGION_END)


def numbers(words: bytes) -> List[int]:
    """x, y and code of each operation."""
    return [*map(int, words.translate(NUMBERS).split())]


def add_flat(shapes: Shapes, text: bytes) -> None:
    """Adds the solids of a copper file in the normal form."""
    try:
        Flat(shapes).read(text)
    except (KeyError, TypeError, IndexError):
        raise BadCopper(NOT_NORMAL) from None
