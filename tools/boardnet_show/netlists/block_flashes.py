"""What the flashes of blocks make: of a copper file with AB for each piece of the lower bound the object of the block.

A block's object has its own attributes, or where it has none those of the flash. The walk is that which writes the
bounds, so that pieces come in the same order; a flash whose pieces are others, as where they are cut, has no objects
here.
"""
from collections import defaultdict
from typing import Any, List, Sequence

from boardnet_show.bounds.files.bounded_file import Copper
from boardnet_show.formats.gerber_machine import FLASH
from boardnet_show.formats.gerber_objects import Object
from boardnet_show.geometry.pieces import Area, Piece
from boardnet_show.geometry.shapes import AREA


class Blocks(Copper):
    """`found` has for each flash of a block outside of blocks (object, pieces of the lower side), in order."""

    def __init__(self, text: str) -> None:
        self.functions, self.found = {}, defaultdict(list)
        self.inner, self.is_contour = None, False
        super().__init__(text)

    def attribute(self, text: str) -> None:
        self.attributes.word(text)
        super().attribute(text)

    def keep(self, number, made, name, word):
        self.functions[number] = self.attributes.function
        super().keep(number, made, name, word)

    def end_region(self, contours):
        self.is_contour = True
        super().end_region(contours)
        self.is_contour = False

    def object(self) -> Object:
        """What the command makes that is walked now."""
        its, kind = self.attributes, "contour" if self.is_contour else "flash" if self.code is FLASH else "draw"
        function = its.function if self.is_contour else self.functions.get(self.chosen, "")
        return Object(kind, self.number, 0, 1, self.spot, 0, function, its.net, its.part, its.pin)

    def flash_block(self, block):
        self.inner = iter([it.tag for it in block.objects])
        super().flash_block(block)
        self.inner = None

    def stays_as(self, dark, both, areas=None, joins=True):
        """Notes objects in blocks by what they are, and at last those of a flash."""
        super().stays_as(dark, both, areas, joins)
        its = next(self.inner) if self.inner else None
        if self.blocks:
            self.objects[-1] = self.objects[-1]._replace(tag=its or self.object())
        elif its and dark:
            self.found[self.number].append((self.named(its), both[0]))

    def named(self, made: Object) -> Object:
        """An object of a block as the flash has it."""
        own, number = self.object(), len(self.found[self.number]) + 1
        more = {} if made.part else {"part": own.part, "pin": own.pin}
        return made._replace(
            command=self.number,
            region=number if made.kind == "contour" else 0,
            inner=number,
            net=made.net or own.net,
            **more,
        )


def form(pieces: Sequence[Piece]) -> List[Any]:
    """Pieces beside the first place, as `form_of` has them."""
    flat = [(AREA, it.corners) if isinstance(it, Area) else (it.radius, dict.fromkeys(it[:2])) for it in pieces]
    x, y = next(iter(flat[0][1]))
    return [(radius, [(v - x, w - y) for v, w in places]) for radius, places in flat]


def form_of(shapes, pieces):
    x, y = shapes.first(pieces[0])
    return [(shapes.radius[piece], [(v - x, w - y) for v, w in shapes.places(piece)]) for piece in pieces]


def objects_of_blocks(text, shapes, sources, pieces):
    """{piece: object} of a copper file's pieces that flashes of blocks made."""
    flashes, groups, told = Blocks(text).found, defaultdict(list), {}
    for piece in pieces:
        _, command, copy, *_ = sources[piece]
        if command in flashes:
            groups[command, copy].append(piece)
    for (command, copy), its in groups.items():
        made = [(it, piece) for it, parts in flashes[command] for piece in parts]
        if len(made) == len(its) and form([piece for _, piece in made]) == form_of(shapes, its):
            told.update((piece, it._replace(copy=copy)) for piece, (it, _) in zip(its, made))
    return told
