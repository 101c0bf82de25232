"""What a copper file defines: macros, apertures, blocks; and how apertures are mirrored, turned and sized."""
import re
from typing import Union

from boardnet_show.bounds.apertures import apertures
from boardnet_show.bounds.apertures.changes import Change
from boardnet_show.formats.gerber_machine import LEAST_APERTURE, definition_of
from boardnet_show.formats.units import decimal_millimetres
from boardnet_show.geometry.exact import Refused, decimal

from .bound_writer import OWN, Side

# What an aperture is kept as; None where it is left to `check`.
Made = Union[apertures.Pen, apertures.Shape, apertures.Block, apertures.Unbounded, None]


class Definitions:
    """An aperture that has no bounds is refused where it is used. `files` are the sides that are written, `sides`
    those that take what is drawn: within a block others, which nobody reads."""

    def __init__(self) -> None:
        self.macros, self.apertures = {}, {}
        self.change, self.blocks, self.used, self.at = Change(), [], set(), {}

    def begin_macro(self, name: str) -> None:
        if self.macros.setdefault(name, []):
            raise Refused("a macro defined twice")

    def macro_word(self, text: str) -> None:
        self.macros[self.macro].append(text)

    # ---- apertures

    def define(self, word: str) -> None:
        its = definition_of(word)
        if not its:
            self.pass_on(f"%{word}*%")
            return
        number, name = its.number, its.template
        if number >= OWN or number < LEAST_APERTURE or not self.scale:
            raise Refused("an aperture's number" if self.scale else "no unit")
        values = [decimal(part) for part in its.values()]
        if None in values:
            raise Refused("an aperture's parameter")
        self.renew(number)
        try:
            made = apertures.of(name, values, self.scale, self.macros)
        except Refused as why:
            made = apertures.Unbounded(str(why))
        self.keep(number, made, name, word)

    def renew(self, number: int) -> None:
        """An aperture may be defined again where nothing used it: then the first definition is none."""
        if number in self.apertures:
            if number in self.used:
                raise Refused("an aperture that is defined again after its use")
            self.replaced += 1
            for side, at in zip(self.files, self.at.pop(number, ())):
                side.lines[at] = "G04*"

    def keep(self, number: int, made: Made, name: str, word: str) -> None:
        self.apertures[number] = made
        if made is None or isinstance(made, apertures.Pen):
            sizes = made.sizes if made else (None, None)
            self.at[number] = [len(side.lines) for side in self.files]
            if made and not made.is_even:
                self.stands([] if made.is_read else None)
            for side, even in zip(self.files, sizes):
                side.word(
                    f"%ADD{number}{name},{'X'.join(decimal_millimetres(v) for v in even)}*%" if made else f"%{word}*%",
                    self.number,
                )

    def select(self, number: int, text: bytes) -> None:
        self.chosen = number
        if self.apertures.get(number) is None:
            self.pass_on(f"{text.decode()}*")

    def aperture(self) -> Made:
        """The chosen one; None where it is left to `check`."""
        made = self.apertures.get(self.chosen)
        if isinstance(made, apertures.Unbounded):
            raise Refused(made.why)
        if made is None and self.blocks:
            raise Refused("no aperture")
        self.used.add(self.chosen)
        return made

    def changed(self, made: apertures.Pen) -> apertures.Shape:
        return self.change.shape(made) if self.change.alters(made) else made

    # ---- how they are changed

    def transform(self, word: str) -> None:
        """LM, LR and LS; another form is left to `check`."""
        value = word[2:] if word.startswith("LM") else decimal(word[2:])
        change = self.change.changed_by(word[:2], value)
        if change:
            self.replaced += change != Change()
            self.change = change
        else:
            self.pass_on(f"%{word}*%")

    # ---- blocks

    def block(self, word: str) -> None:
        match = re.fullmatch(r"ABD(\d{1,9})", word)
        if match and LEAST_APERTURE <= int(match[1]) < OWN:
            self.blocks.append((int(match[1]), self.objects, self.sides, self.lost, self.copies))
            self.objects, self.sides, self.lost, self.copies = [], (Side(), Side()), [], None
        elif word == "AB" and self.blocks:
            made = apertures.Block(self.objects, self.lost)
            self.repeat("SR")
            number, self.objects, self.sides, self.lost, self.copies = self.blocks.pop()
            self.renew(number)
            self.apertures[number], self.replaced = made, self.replaced + 1
        else:
            raise Refused("a block's beginning or end")
