"""Pieces of copper as values, of whole places in u: a capsule is all that is within a radius of a line, or of a place;
an area is a contour with its inside."""
from typing import TYPE_CHECKING, Any, List, NamedTuple, Tuple, Union

if TYPE_CHECKING:  # loading it takes longer than a small board has
    from fractions import Fraction

Spot = Tuple[int, int]
Line = Tuple[Spot, Spot]
Corners = List[Spot]


class Capsule(NamedTuple):
    """All within a radius of a line, or of a place where both ends are one."""

    start: Spot
    end: Spot
    radius: int


class Area(NamedTuple):
    """A contour with its inside."""

    corners: Corners


Piece = Union[Capsule, Area]
# What stands for something on the lower side and on the upper one.
Both = Tuple[List[Piece], List[Piece]]
Box = Tuple[int, int, int, int]  # left, low, right, high
# What holds a number that is no whole one, and a place.
Number = Union[int, "Fraction"]
Interval = Tuple["Fraction", "Fraction"]
Point = Tuple[Interval, Interval]
# A real figure: its kind, and what that is told by.
Figure = Tuple[Any, ...]
