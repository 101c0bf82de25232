"""A copper file outside the profile between two files within it: LOWER lies in the real copper, UPPER holds it.

What is not replaced is passed on as it stands, in millimetres of seven decimals, so that `check` judges it as before.
A file with clear polarity, or with contours that are too long, is walked twice: once for its objects, and once to
write those that stay.
"""
from typing import Any, Callable, Collection, List, Optional, Sequence, Tuple

from boardnet_show.bounds.polarity import dark_and_clear, negative
from boardnet_show.formats.gerber_lexer import Run, Word
from boardnet_show.formats.gerber_machine import MOST_OBJECTS, MOVE, STRAIGHT, Code, Machine, Unread
from boardnet_show.geometry.exact import Refused
from boardnet_show.geometry.pieces import Both, Piece, Spot

from .bound_writer import Side
from .definitions import Definitions
from .operations import Operations
from .regions import Regions
from .settings import Settings

# Contours that an object is of, where they are known; and the pieces that stand for taken objects on both sides, each
# with its command.
Areas = Optional[List[List[Spot]]]
Written = Sequence[Sequence[Tuple[Piece, int]]]
IN_REGIONS = ("TF", "TA", "TO", "TD", "AD", "AM", "LPD")  # what may stand there and says nothing of the contours


def of_text(text: str, outline: Optional[Callable[[], Any]] = None, is_coarse: bool = False) -> "Copper":
    """Both sides of a copper file; `outline` gives the board's outline where it is asked for."""
    copper = Copper(text, is_coarse=is_coarse)
    if (copper.long or copper.clears or copper.negative) and not copper.cuts:
        copper = Copper(text, cuts=True)
    if not copper.clears and not copper.long and not copper.negative:
        return copper
    objects, also = copper.objects, copper.long
    if copper.negative:
        if outline is None:
            raise Refused("a negative file")
        its = outline()
        objects = negative.exchanged(objects, its, copper.negative)
        also = {it.tag for it in objects}
        copper.lost += (
            [f"the plane, since the board's outline is not known ({its.why}), at command {copper.negative}"]
            if its.why
            else []
        )
    taken, *written = dark_and_clear.cut(objects, also)
    again = Copper(text, taken, written, True)
    again.lost = copper.lost
    return again


class Copper(Settings, Definitions, Operations, Regions, Machine):
    """Walks a copper file and writes both sides.

    `lost` says what LOWER leaves out, `replaced` counts what is written otherwise. `objects` is all that the file
    makes, in order, where it is asked for; `negative` is the command that says that they are none. Dark objects of
    commands of `taken` are not written, but at the end what is `written`. `unlike` are the commands that make other
    copper on both sides, but for pens off the grid. `is_bent` says that `between` reads regions with arcs, if areas
    within them are as it wants: they are where `is_coarse` asks for that.
    """

    RUNS = True

    def __init__(
        self,
        text: str,
        taken: Collection[int] = (),
        written: Written = ((), ()),
        cuts: bool = False,
        is_coarse: bool = False,
    ) -> None:
        Machine.__init__(self)
        for part in (Settings, Definitions, Operations, Regions):
            part.__init__(self)
        self.sides = self.files = (Side(), Side())
        self.lost, self.replaced = [], len(taken)
        self.taken, self.written, self.objects, self.copies = taken, written, [], None
        self.clears, self.negative, self.unlike = False, None, {source for its in written for _, source in its}
        self.is_coarse, self.is_bent = is_coarse, False
        self.cuts = cuts or "LPC*" in text or "IPNEG*" in text or ".FilePolarity,Negative" in text
        try:
            self.read(text.encode("latin-1"))
        except Unread:
            raise
        except Refused as why:
            raise Refused(f"{why} at command {self.number}") from None
        if self.contours is not None:
            raise Refused("a region without an end")
        if self.blocks:
            raise Refused("a block without an end")

    # ---- objects in their order

    def is_noted(self) -> bool:
        """Whether the file's objects are asked for: where some are cut, and in blocks."""
        return self.cuts or bool(self.blocks)

    def stays(self, lower: List[Piece], upper: List[Piece], areas: Areas = None, joins: bool = True) -> bool:
        """Notes what a command makes. Whether it is written as it comes."""
        self.stays_as(self.is_dark, (lower, upper), areas, joins)
        return self.is_dark and self.number not in self.taken

    def stays_as(self, dark: bool, both: Both, areas: Areas = None, joins: bool = True) -> None:
        if self.is_noted():
            self.objects.append(dark_and_clear.Object(dark, both, self.number, areas, joins))
            if len(self.objects) > MOST_OBJECTS:
                raise Refused("too many objects")

    def passes(self) -> bool:
        """Whether an object is known already and is not written: by a second walk."""
        return any(self.written) and not self.blocks and (not self.is_dark or self.number in self.taken)

    def lose(self, what: str) -> None:
        """What LOWER leaves out, or what a clear object does not take away from UPPER."""
        what = what if self.is_dark else f"what {what} takes away, as far as that is not sure,"
        self.lost.append(f"{what} at command {self.number}")

    def polarity(self, is_dark: bool) -> None:
        if self.contours is not None and not (self.is_dark and is_dark):
            raise Refused("a word in a region")
        self.is_dark = is_dark
        self.clears, self.replaced = self.clears or not is_dark, self.replaced + (not is_dark)
        if is_dark:
            self.both("%LPD*%")

    def steps(self, text: str) -> None:
        """Ends a block, whose objects give way to their copies, and may open one."""
        self.repeat(text)
        (self.both if self.copies or text == "SR" else self.pass_on)(f"%{self.step_word(text)}*%")

    def repeat(self, text: str) -> None:
        if self.copies:
            first, columns, rows, x, y = self.copies
            # Copies of nothing are none, however many: `check` takes them.
            once = [it for it in self.objects[first:] if any(it.both)]
            if len(once) * columns * rows > MOST_OBJECTS:
                raise Refused("too many copies")
            self.objects[first:] = (
                [it.moved(i * x, j * y) for i in range(columns) for j in range(rows) for it in once] if once else []
            )
        step = self.step(text)
        self.copies = (len(self.objects), *step) if step else None

    def finish(self) -> None:
        """What is written instead of the taken objects, after all blocks and labels."""
        is_open = self.copies
        self.repeat("SR")
        if any(self.written):
            self.both("%TD*%")
        for side, written in zip(self.sides, self.written):
            if is_open and any(self.written):
                side.word("%SR*%", self.number)
            for piece, source in written:
                side.pieces([piece], (0, 0), source)

    # ---- words in pairs of percent signs

    def setting(self, text: str) -> None:
        if "\n" in text or "\r" in text:
            raise Refused("a line break in a word")
        if self.contours is not None and not text.startswith(IN_REGIONS):
            raise Refused("a word in a region")
        super().setting(text)

    def attribute(self, text: str) -> None:
        self.other_setting(text)

    def other_setting(self, text: str) -> None:
        if negative.is_negative(text) and not self.blocks:
            self.set_negative()
        else:
            self.pass_on(f"%{text}*%")

    def set_negative(self) -> None:
        if self.negative:
            raise Refused("a file that is negative twice")
        self.negative = self.number

    # ---- other words

    def comment(self, text: bytes) -> None:
        if negative.is_negative(text.decode("latin-1")):
            self.set_negative()

    def run(self, run: Run) -> None:
        """The words of a region by their numbers."""
        if self.mode is not STRAIGHT or not isinstance(self.unit, int):
            super().run(run)
            return
        xs, ys = run.xs, run.ys
        if self.unit != 1:
            xs, ys = ([v * self.unit for v in its] for its in (xs, ys))
        spots = [*zip(xs, ys)]
        moves = [k for k, code in enumerate(run.codes) if code == MOVE]
        before = moves[0] if moves else len(spots)
        if before:
            self.contours += [] if self.contours else [[self.spot]]
            self.contours[-1] += spots[:before]
        self.contours += [spots[a:b] for a, b in zip(moves, [*moves[1:], len(spots)])]
        self.spot, self.code, self.number = spots[-1], Code(run.codes[-1]), self.number + len(spots) - 1

    def plain(self, word: Word) -> None:
        if b"\n" in word.text or b"\r" in word.text:
            raise Refused("a line break in a word")
        super().plain(word)

    def end(self) -> None:
        if self.contours is not None:
            raise Refused("a region without an end")
        if self.blocks:
            raise Refused("a block without an end")
        self.finish()
        self.other(self.word.text)

    def other(self, text: bytes) -> None:
        if text:
            if self.contours is not None:
                raise Refused("a word in a region")
            self.pass_on(f"{text.decode('latin-1')}*")
