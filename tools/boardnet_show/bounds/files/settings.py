"""The format and the unit of a copper file, and its lengths as whole u."""
import re
from typing import Optional, Tuple
from fractions import Fraction as Q

from boardnet_show.formats.gerber_machine import steps_of
from boardnet_show.formats.units import decimal_millimetres
from boardnet_show.geometry.exact import Refused, decimal


class Settings:
    """`unit` is what a coordinate counts, in u, once both are known."""

    def __init__(self) -> None:
        self.scale = self.decimals = self.format = self.unit = None

    def both(self, text: str) -> None:
        for side in self.sides:
            side.word(text, self.number)

    def pass_on(self, text: str) -> None:
        """What is left to `check`; within a block it would not see it."""
        if self.blocks and not text.startswith(("%TA", "%TO", "%TD")):
            raise Refused("a word in a block that is not known")
        self.both(text)

    def format_word(self, word: str) -> None:
        match = re.fullmatch(r"FSLAX([1-6])([2-7])Y\1\2", word)
        if not match or self.format not in (None, word):
            raise Refused("a format that is not absolute with leading zeros left out")
        self.format, self.decimals = word, int(match[2])
        self.both("%FSLAX47Y47*%")
        self.set_unit()

    def unit_word(self, scale: int, text: str) -> None:
        if self.scale not in (None, scale):
            raise Refused("two units")
        self.scale = scale
        self.both("G71*" if text.startswith("G") else "%MOMM*%")
        self.set_unit()

    def set_unit(self) -> None:
        if self.scale and self.decimals:
            unit = Q(self.scale, 10**self.decimals)
            self.unit = unit.numerator if unit.denominator == 1 else unit

    def whole(self, length: Q) -> int:
        """A length in the file's unit as whole u."""
        if not self.scale:
            raise Refused("no unit")
        return self.on_grid(length * self.scale)

    @staticmethod
    def on_grid(length: Q) -> int:
        if length.denominator != 1:
            raise Refused("a place that is no whole tenth of a nanometre")
        return length.numerator

    def length(self, digits: bytes) -> int:
        """A coordinate as whole u."""
        if self.unit is None:
            raise Refused("no format" if self.decimals is None else "no unit")
        length = int(digits) * self.unit
        return length if type(length) is int else self.on_grid(length)

    def step(self, word: str) -> Optional[Tuple[int, int, int, int]]:
        """(columns, rows, across, up) of a block; None where the word has none, or another form."""
        its = steps_of(word) if self.scale else None
        steps = [decimal(part) for part in (its.across, its.up)] if its else [None]
        if None in steps:
            return None
        return (its.columns, its.rows, *map(self.whole, steps))

    def step_word(self, word: str) -> str:
        found = self.step(word)
        return "SRX{}Y{}I{}J{}".format(*found[:2], *map(decimal_millimetres, found[2:])) if found else word
