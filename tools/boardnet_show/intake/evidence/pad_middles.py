"""Where the pads of a board are, by the flashes of its copper files as they came: no shape of a pad is looked at."""
import re
from fractions import Fraction
from typing import Dict, Iterable, List, Optional, Set, Tuple

from boardnet_show.formats.gerber_lexer import Parts, Plain
from boardnet_show.formats.gerber_machine import Machine
from boardnet_show.geometry.exact import Refused

FORMAT = re.compile(r"FSLAX\d(\d)Y\d\d")
Spot = Tuple[int, int]
NEAR = 50_000  # u of the cells in which places are looked for: more than what two roundings differ by


class Flashes(Machine):
    """The places of a copper file's flashes, as its numbers; its unit and its format, None before they are said."""

    PLAIN = True

    def __init__(self, data: bytes) -> None:
        super().__init__()
        self.digits: Tuple[bytes, bytes] = (b"0", b"0")
        self.spots: Set[Tuple[bytes, bytes]] = set()
        self.scale: Optional[int] = None
        self.decimals: Optional[int] = None
        self.read(data)

    def unit_word(self, scale: int, text: str) -> None:
        self.scale = self.scale or scale

    def format_word(self, text: str) -> None:
        found = FORMAT.match(text)
        self.decimals = self.decimals or (int(found[1]) if found else None)

    def plain_words(self, plain: Plain) -> None:
        for x, y, code, aperture in plain.words:
            if not aperture:
                self.digits = x or self.digits[0], y or self.digits[1]
                if code == b"3":
                    self.spots.add(self.digits)

    def operation(self, parts: Parts) -> None:
        _, x, y, _, code = parts
        self.digits = x or self.digits[0], y or self.digits[1]
        if code == b"3":
            self.spots.add(self.digits)


def of_file(data: bytes) -> Set[Spot]:
    """Middles of the flashes of a copper file, in u; none without one format and unit. Copies of blocks are left
    out."""
    try:
        found = Flashes(data)
    except Refused:
        return set()
    if not found.scale or not found.decimals:
        return set()
    step = Fraction(found.scale, 10**found.decimals)
    in_u = {number: round(int(number) * step) for number in {number for spot in found.spots for number in spot}}
    return {(in_u[x], in_u[y]) for x, y in found.spots}


class Middles:
    """Middles of pads, for places that are asked after."""

    def __init__(self, files: Iterable[bytes]) -> None:
        self.cells: Dict[Spot, List[Spot]] = {}
        for x, y in set().union(*map(of_file, files)):
            self.cells.setdefault((x // NEAR, y // NEAR), []).append((x, y))

    def is_at(self, spot: Spot, off: int) -> bool:
        """Whether a pad's middle is at most so far from a place, along either axis."""
        x, y = spot
        cells = ((x // NEAR + i, y // NEAR + j) for i in (-1, 0, 1) for j in (-1, 0, 1))
        return any(abs(a - x) <= off and abs(b - y) <= off for cell in cells for a, b in self.cells.get(cell, ()))

    def count(self, spots: Iterable[Spot], off: int) -> int:
        """How many places are so near a pad's middle."""
        return sum(self.is_at(spot, off) for spot in spots)
