"""One of the two files that are written in a copper file's place."""
from typing import Dict, Iterable, List, Optional, Sequence
from boardnet_show.formats.gerber_machine import DRAW, FLASH, MOVE
from boardnet_show.formats.units import decimal_millimetres
from boardnet_show.geometry.pieces import Area, Piece, Spot

OWN = 900_000_000  # numbers of apertures that are made here


def edges_of(spots: Sequence[Spot]) -> List[str]:
    """The words of a contour's edges."""
    return [f"X{x}Y{y}D01*" for x, y in spots[1:]]


class Side:
    """A copper file that is being written: its lines, and for each word the command of the old file that it comes
    from."""

    def __init__(self) -> None:
        self.lines, self.sources, self.made = [], [], {}
        self.at = self.pen = None

    def word(self, text: str, source: int) -> None:
        self.lines.append(text)
        self.sources.append(source)

    def select(self, number: int, source: int) -> None:
        if self.pen != number:
            self.word(f"D{number}*", source)
            self.pen = number

    def circle(self, radius: int, source: int) -> None:
        if radius not in self.made:
            self.made[radius] = OWN + len(self.made)
            self.word(f"%ADD{self.made[radius]}C,{decimal_millimetres(2 * radius)}*%", source)
        self.select(self.made[radius], source)

    def move(self, spot: Spot, source: int) -> None:
        if self.at != spot:
            self.operate(spot, MOVE, source)

    def operate(self, spot: Spot, operation: int, source: int) -> None:
        self.word(f"X{spot[0]}Y{spot[1]}D0{operation}*", source)
        self.at = spot

    def run(self, spots: Sequence[Spot], source: int, edges: Optional[List[str]] = None) -> None:
        """A contour by its places, the first one at its end again; `edges` are their words, where they are known."""
        self.operate(spots[0], MOVE, source)
        self.lines += edges_of(spots) if edges is None else edges
        self.sources += [source] * (len(spots) - 1)
        self.at = spots[-1]

    def region(self, corners: List[Spot], source: int) -> None:
        self.word("G36*", source)
        self.run(corners + corners[:1], source)
        self.word("G37*", source)

    def capsule(self, a: Spot, b: Spot, radius: int, source: int) -> None:
        if self.pen is None or self.made.get(radius) != self.pen:
            self.circle(radius, source)
        if a == b:
            self.operate(a, FLASH, source)
        else:
            self.move(a, source)
            self.operate(b, DRAW, source)

    def pieces(self, pieces: Iterable[Piece], by: Spot, source: int) -> None:
        """Pieces about a place."""
        x, y = by
        for piece in pieces:
            if isinstance(piece, Area):
                self.region([(u + x, v + y) for u, v in piece.corners] if any(by) else piece.corners, source)
            else:
                a, b, radius = piece
                self.capsule((a[0] + x, a[1] + y), (b[0] + x, b[1] + y), radius, source)

    def file_text(self) -> str:
        return "\n".join([*self.lines, ""])
