"""What the commands of a copper file make, in order, and what its attributes say of it: function, net, part and pin.

It is walked without a judgement: `check` or `flatten` took the file. Objects count the pieces that `flatten` makes of
them, so that each piece of a flattened file has its object in the file as it was.
"""
from fractions import Fraction as Q
from typing import Dict, List, NamedTuple, Optional, Tuple

from boardnet_show.base.statuses import BadCopper
from boardnet_show.geometry.exact import DECIMAL, Refused

from .gerber_lexer import Plain, Run
from .gerber_machine import CODES, DRAW, FLASH, MOST_OBJECTS, MOVE, Code, Machine, Spot, definition_of, steps_of
from .macro_expressions import Expression, compact

PRIMITIVES = {1: (2,), 20: (2,), 21: (2, 3)}  # where a primitive has its sizes; without one it makes nothing


class Object(NamedTuple):
    """`pieces` of a flash, draw or contour; `place` is that of a flash, `region` the number of a contour's region,
    `inner` that of an object that the flash of a block makes."""

    kind: str
    command: int
    copy: int
    pieces: int
    place: Spot
    region: int
    function: str
    net: str
    part: str
    pin: str
    inner: int = 0


class Aperture(NamedTuple):
    """How many pieces a flash of it makes, and its function."""

    pieces: int
    function: str


class Block(NamedTuple):
    """Step and repeat: the number of its first object, how often these come, and the steps."""

    first: int
    columns: int
    rows: int
    x: int
    y: int


class Walk(Machine):
    """Goes through a copper file; `objects` is what it makes."""

    RUNS = PLAIN = True

    def __init__(self, data: bytes) -> None:
        super().__init__()
        self.objects: List[Object] = []
        self.apertures: Dict[int, Aperture] = {}
        self.macros: Dict[str, List[str]] = {}
        self.scale, self.parts = 0, 1
        self.aperture: Optional[Aperture] = None
        self.repeated: Optional[Block] = None
        self.edges = self.region = 0
        self.read(data)

    # ---- settings

    def format_word(self, text: str) -> None:
        self.parts = int(10 ** int(text[-1]))

    def unit_word(self, scale: int, text: str) -> None:
        self.scale = scale

    def length(self, digits: bytes) -> int:
        return int(digits) * self.scale // self.parts

    def end(self) -> None:
        self.steps("SR")

    # ---- apertures

    def begin_macro(self, name: str) -> None:
        self.macros.setdefault(name, [])

    def macro_word(self, text: str) -> None:
        if self.macro is not None:
            self.macros[self.macro].append(text)

    def define(self, text: str) -> None:
        its = definition_of(text)
        if not its:
            return
        values = [Q(part) for part in its.values() if DECIMAL.fullmatch(part)]
        is_shape = its.template != "C" or any(values[:1])
        count = self.macro_count(its.template, values) if its.template in self.macros else int(is_shape)
        self.apertures[its.number] = Aperture(count, self.attributes.function)

    def macro_count(self, name: str, values: List[Q]) -> int:
        """How many primitives of a macro have an image."""
        variables, count = {k: value for k, value in enumerate(values, 1)}, 0
        try:
            for word in map(compact, self.macros[name]):
                if not word or word.startswith("0"):
                    continue
                parts = word.split(",")
                sizes = [Expression(parts[k], variables).value() for k in PRIMITIVES.get(int(Q(parts[0])), ())]
                is_line = Q(parts[0]) == 20
                line = [Expression(part, variables).value() for part in (parts[3:7] if is_line else "0011")]
                count += all(sizes) and line[:2] != line[2:]
        except (Refused, ValueError, IndexError, ZeroDivisionError):
            return 1  # of a macro that `flatten` refuses: bounds have their own sources
        return count

    def select(self, number: int, text: bytes) -> None:
        self.aperture = self.apertures.get(number)

    # ---- operations

    def plain_words(self, plain: Plain) -> None:
        """The usual words, without a call for each that moves."""
        scale, parts = self.scale, self.parts
        for self.number, (x, y, code, aperture) in enumerate(plain.words, self.number):
            if aperture:
                self.aperture = self.apertures.get(int(aperture))
                continue
            before = self.spot
            self.spot = int(x) * scale // parts if x else before[0], int(y) * scale // parts if y else before[1]
            self.code = CODES[code]
            if self.in_region:
                (self.contour if self.code is MOVE else self.edge)(self.spot)
            elif self.code is DRAW:
                self.draw(self.spot)
            elif self.code is FLASH:
                self.flash()

    def draw(self, start: Spot) -> None:
        if self.aperture is None or self.aperture.pieces:
            self.add("draw", 1)

    def flash(self) -> None:
        if self.aperture is not None:
            self.add("flash", self.aperture.pieces)

    def edge(self, start: Spot) -> None:
        self.edges += 1

    def contour(self, start: Spot) -> None:
        if self.edges:
            self.add("contour", 1)
        self.edges = 0

    def region_begins(self) -> None:
        super().region_begins()
        self.next_region()

    def region_ends(self) -> None:
        super().region_ends()
        self.next_region()

    def next_region(self) -> None:
        self.contour(self.spot)
        self.region += 1

    def run(self, run: Run) -> None:
        """The words of a region by their numbers."""
        xs, ys, codes = run.xs, run.ys, run.codes
        first, before = self.number, 0
        for k in [*(k for k, code in enumerate(codes) if code == MOVE), len(codes)]:
            self.edges += k - before
            if k < len(codes):
                self.number, self.spot = first + k, (xs[k] * self.scale // self.parts, ys[k] * self.scale // self.parts)
                self.contour(self.spot)
            before = k + 1
        self.number, self.code = first + len(codes) - 1, Code(codes[-1])
        self.spot = xs[-1] * self.scale // self.parts, ys[-1] * self.scale // self.parts

    def add(self, kind: str, count: int) -> None:
        its = self.attributes
        function = self.aperture.function if self.aperture and kind != "contour" else its.function
        region = self.region if kind == "contour" else 0
        kind = kind if self.is_dark else "clear"
        named = function, its.net, its.part, its.pin
        self.objects.append(Object(kind, self.number, 0, count, self.spot, region, *named))

    # ---- step and repeat

    def steps(self, text: str) -> None:
        """Ends a block, whose objects give way to their copies, and may open one."""
        if self.repeated:
            self.repeat(self.repeated)
        its = steps_of(text)
        steps: Tuple[int, int] = (round(Q(its.across) * self.scale), round(Q(its.up) * self.scale)) if its else (0, 0)
        self.repeated = Block(len(self.objects), its.columns, its.rows, *steps) if its else None

    def repeat(self, block: Block) -> None:
        # Copies of nothing are none, however many: `check` takes them.
        once = [it for it in self.objects[block.first :] if it.pieces]
        if len(once) * block.columns * block.rows > MOST_OBJECTS:
            raise BadCopper("it has too many copies of blocks")
        self.objects[block.first :] = (
            [
                it._replace(copy=i * block.rows + j, place=(it.place[0] + i * block.x, it.place[1] + j * block.y))
                for i in range(block.columns)
                for j in range(block.rows)
                for it in once
            ]
            if once
            else []
        )


def objects_of(data: bytes) -> List[Object]:
    """The objects of a copper file."""
    return Walk(data).objects
