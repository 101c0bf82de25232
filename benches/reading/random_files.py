"""Random lawful files that mix the words of all forms, each the same for the same seed. Lengths are in last places."""
import random
from typing import List, Sequence, Tuple

# Forms: those of `check`; pads by macros; clear polarity, arcs, holes and polygons; changed objects too; drills.
FORMS = ("plain", "macros", "clear", "changed", "drill")
SPAN, INCH_TENTHS = 12, 254  # Half the board's side in millimetres; tenths of a millimetre in an inch.
# Directions about a middle, in the order of their turns: contours about them do not cross themselves.
ROUND = (
    (5, 0),
    (4, 2),
    (4, 3),
    (3, 4),
    (1, 5),
    (0, 5),
    (-2, 4),
    (-3, 4),
    (-4, 3),
    (-5, 1),
    (-5, 0),
    (-4, -2),
    (-4, -3),
    (-3, -4),
    (-1, -5),
    (0, -5),
    (2, -4),
    (3, -4),
    (4, -3),
    (5, -1),
)
# The corners of a square with a hole, by a cut to it: in turn in its halves and those of its hole.
CUT_IN = ("-a-a", "+a-a", "+a+a", "-a+a", "-a0", "-b0", "-b+b", "+b+b", "+b-b", "-b-b", "-b0", "-a0")
IDLE = ("G04 a comment X1Y1D03*", "*", "%TA.AperFunction,Conductor*%", "%TD*%", "%LNabc*%")
HEADS = ("%IPPOS*%", "%INx*%", "%OFA0B0*%", "G75*", "G01*", "%LPD*%")
CHANGES = ("%LMX*%", "%LMXY*%", "%LR90*%", "%LR30*%", "%LS1.5*%")
UNCHANGED = "%LMN*%\n%LR0*%\n%LS1*%"
AXES = ((1, 0), (0, 1), (-1, 0), (0, -1))
Spot = Tuple[int, int]


class Random:
    """What random files share: a unit, decimals, and sizes."""

    def __init__(self, rng: random.Random, digits: int, is_inch: bool):
        self.rng, self.digits, self.is_inch, self.lines = rng, digits, is_inch, []

    def length(self, micrometres: int) -> int:
        """Micrometres in the file's last place."""
        return micrometres * 10**self.digits // (100 * INCH_TENTHS if self.is_inch else 1_000)

    def size(self, least: int = 300, most: int = 3_000) -> int:
        """A size, of four decimals at most, which is even in u."""
        coarse = 10 ** max(0, self.digits - 4)
        return max(1, self.length(self.rng.randint(least, most)) // coarse) * coarse

    def decimal(self, value: int) -> str:
        """A length as a decimal, with or without its last zeros."""
        whole, rest = divmod(abs(value), 10**self.digits)
        text = f"{'-' if value < 0 else ''}{whole}.{rest:0{self.digits}d}"
        return text.rstrip("0").rstrip(".") if self.rng.random() < 0.5 else text

    def chance(self, percent: int) -> bool:
        return self.rng.randrange(100) < percent

    def text(self) -> bytes:
        return "".join(self.lines).encode()


class Copper(Random):
    """A copper file of a form; `made` has names of apertures by number."""

    def __init__(self, rng: random.Random, form: str):
        inch = rng.randrange(10) < 3
        super().__init__(rng, rng.choice((4, 5, 6) if inch else (3, 4, 5, 6)), inch)
        self.form, self.made, self.chosen, self.number = form, {}, 0, 10
        self.at, self.last, self.mode, self.is_in_block = (0, 0), 0, 0, False
        self.head()
        self.every_aperture()
        if form in ("clear", "changed"):
            self.arc(self.rng.sample(AXES, 2))
        self.objects(rng.randint(5, 15))
        if self.chance(50) and form != "changed" or self.chance(20):
            self.block()
        self.word("M02*")

    def word(self, text: str) -> None:
        self.lines.append(text + self.rng.choices(("\n", "\r\n", ""), (90, 5, 5))[0])

    def head(self) -> None:
        whole = 2 if self.is_inch else 4
        form = f"%FSLAX{whole}{self.digits}Y{whole}{self.digits}*%"
        unit = ("%MOIN*%", "G70*") if self.is_inch else ("%MOMM*%", "G71*")
        words = [form, self.rng.choices(unit, (4, 1))[0]]
        for it in words[::-1] if self.chance(30) else words:
            self.word(it)
        for it in HEADS:
            if self.chance(15):
                self.word(it)
        for _ in range(self.rng.randint(3, 6)):
            self.define()
        self.begin()

    def begin(self) -> None:
        self.choose()
        self.operation(self.place(), 2, True)

    # ---- coordinates and operations

    def place(self) -> Spot:
        far = self.length(SPAN * 1_000)
        return self.rng.randint(-far, far), self.rng.randint(-far, far)

    def coordinate(self, value: int) -> str:
        digits = str(abs(value)).rjust(min(11, self.digits + 4) if self.chance(10) else 0, "0")
        return ("-" if value < 0 else "+" if self.chance(10) else "") + digits

    def operation(self, spot: Spot, code: int, is_whole: bool = False) -> None:
        """A move, draw or flash; coordinates that stay may be left out, and the code of a draw behind a draw."""
        stands = lambda v, old: is_whole or v != old or self.chance(50)
        text = "".join(axis + self.coordinate(v) for axis, v, old in zip("XY", spot, self.at) if stands(v, old))
        if not (code == 1 and self.last == 1 and text and self.chance(30)):
            text += f"D{code}" if self.chance(10) else f"D0{code}"
        if self.mode in (0, 1) and self.chance(15):
            text, self.mode = self.rng.choice(("G01", "G1")) + text, 1
        self.word(text + "*")
        self.at, self.last = spot, code

    def straight(self) -> None:
        if self.mode not in (0, 1):
            self.word("G01*")
            self.mode = 1

    def choose(self, names: str = "") -> bool:
        can = [number for number, name in self.made.items() if not names or name in names]
        if can:
            self.chosen = self.rng.choice(can)
            self.word(self.rng.choice(("D%d*", "D%d*", "G54D%d*")) % self.chosen)
        return bool(can)

    # ---- apertures

    def every_aperture(self) -> None:
        """Each kind of aperture of the form is flashed in a row below all else, so that a rule of any shows in every file."""
        for name in sorted(set(self.names) - set(self.made.values())):
            self.define(name)
        for place, number in enumerate(sorted(self.made)):
            self.chosen = number
            self.word(f"D{number}*")
            self.operation((self.length((5 * place - SPAN) * 1_000), self.length(-2 * SPAN * 1_000)), 3)

    @property
    def names(self) -> str:
        """Kinds of apertures, the oftener the likelier."""
        return {"plain": "CCCRRO", "macros": "CROMMMM"}.get(self.form, "CROHP")

    def define(self, name: str = "") -> None:
        name = name or ("C" if not self.made else self.rng.choice(self.names))
        self.number += self.rng.choice((1, 1, 1, 5))
        zero = "0" if self.chance(7) else ""
        how = {"C": self.circle, "H": self.holed, "P": self.polygon, "M": self.macro}.get(name)
        words = how() if how else self.sides(name)
        self.word(f"%ADD{zero}{self.number}{words}*%")
        self.made[self.number] = name

    def circle(self) -> str:
        return "C," + self.decimal(self.size())

    def sides(self, name: str) -> str:
        return f"{name},{self.decimal(self.size())}X{self.decimal(self.size())}"

    def holed(self) -> str:
        side = self.size(1_000)
        hole = self.decimal(side // 4 * 2)
        side = self.decimal(side)
        return self.rng.choice((f"C,{side}X{hole}", f"R,{side}X{side}X{hole}", f"O,{side}X{side}X{hole}"))

    def polygon(self) -> str:
        turn = self.rng.choice(("", "X0", "X15", "X30", "X45.5", "X-20"))
        return f"P,{self.decimal(self.size(1_000))}X{self.rng.randint(3, 12)}{turn}"

    def macro(self) -> str:
        """A macro of some primitives, and what an aperture of it says."""
        given: List[str] = []
        rows = [self.primitive(given) for _ in range(self.rng.randint(1, 3))]
        if self.chance(30):
            rows.insert(self.rng.randint(0, len(rows)), "0 a comment")
        name = f"Mac{self.number}"
        self.word(f"%AM{name}*\n" + "*\n".join(rows) + "*%")
        return name + ("," + "X".join(given) if given else "")

    def part(self, value: int, given: List[str]) -> str:
        """A length of a primitive: as it is, by a parameter, or as a sum."""
        how = self.rng.randrange(100)
        if how < 25 and len(given) < 8:
            given.append(self.decimal(value))
            return f"${len(given)}"
        if how < 35:
            first = self.length(500)
            rest = self.decimal(value - first)
            return self.decimal(first) + (rest if rest.startswith("-") else "+" + rest)
        return self.decimal(value)

    def off(self, far: int = 1_000) -> int:
        return self.length(self.rng.randint(-far, far))

    def primitive(self, given: List[str]) -> str:
        part, turn = (lambda value: self.part(value, given)), self.rng.choice((0, 0, 90, 180, 270))
        code = self.rng.choice((1, 4, 5, 20, 21))
        if code == 1:
            return f"1,1,{part(self.size(400, 2_000))},{part(self.off())},{part(self.off())}"
        if code == 5:
            return f"5,1,{self.rng.randint(3, 12)},0,0,{part(self.size(500, 2_000))},{turn}"
        if code == 21:
            sides = f"{part(self.size(400, 2_000))},{part(self.size(400, 2_000))}"
            return f"21,1,{sides},{part(self.off())},{part(self.off())},{turn}"
        if code == 20:
            (x, y), more = (self.off(), self.off()), self.size(500, 2_000)
            to = self.rng.choice(((x + more, y), (x, y + more)))
            return f"20,1,{part(self.size(300, 1_000))},{','.join(map(self.decimal, (x, y, *to)))},{turn}"
        corners = self.contour((self.off(500), self.off(500)), 1_500)
        told = ",".join(self.decimal(v) for spot in corners + corners[:1] for v in spot)
        return f"4,1,{len(corners)},{told},{turn}"

    # ---- objects

    def contour(self, middle: Spot, most: int) -> List[Spot]:
        """Corners about a middle, seen from there in the order of their turns, at most half a turn apart."""
        first, count = self.rng.randrange(len(ROUND)), self.rng.randint(4, 9)
        ways = [ROUND[(first + k * len(ROUND) // count) % len(ROUND)] for k in range(count)]
        fars = [self.length(self.rng.randint(most * 2 // 5, most)) for _ in ways]
        return [(middle[0] + x * far // 5, middle[1] + y * far // 5) for (x, y), far in zip(ways, fars)]

    def cut_in(self, middle: Spot) -> List[Spot]:
        """The corners of a square with a hole, by a cut to it."""
        (x, y), a, b = middle, self.length(3_000), self.length(1_000)
        far = {"-a": -a, "+a": a, "-b": -b, "+b": b, "0": 0}
        return [(x + far[it[:2]], y + far[it[2:]]) for it in CUT_IN]

    def region(self) -> None:
        self.straight()
        self.word("G36*")
        for _ in range(self.rng.choice((1, 1, 2, 3))):
            corners = self.cut_in(self.place()) if self.chance(30) else self.contour(self.place(), 3_000)
            corners = corners[::-1] if self.chance(50) else corners
            self.operation(corners[0], 2)
            for corner in corners[1:] + corners[:1]:
                self.operation(corner, 1)
            if self.chance(10):
                self.word("%TO.N,abc*%")
        self.word("G37*")

    def flashes(self) -> None:
        for _ in range(self.rng.randint(1, 3)):
            self.operation(self.place(), 3)

    def draws(self) -> None:
        if self.made.get(self.chosen) != "C":
            self.choose("C")
        self.straight()
        if self.chance(80):
            self.operation(self.place(), 2)
        for _ in range(self.rng.randint(1, 4)):
            x, y = self.place()
            self.operation(self.rng.choice((self.at, (x, self.at[1]), (x, y))), 1)
            if self.chance(10):
                self.choose("C")

    def arc(self, sides: Sequence[Spot] = ()) -> None:
        """A quarter, a half, three quarters or the whole of a circle, from one of its sides to another."""
        sides = sides or [self.rng.choice(AXES) for _ in "ab"]
        self.choose("C")
        self.word("G75*")
        (x, y), r = self.place(), self.length(self.rng.randint(500, 4_000))
        ends = [(x + i * r, y + j * r) for i, j in sides]
        self.operation(ends[0], 2, True)
        self.mode = self.rng.choice((2, 3))
        self.word(f"G0{self.mode}X{ends[1][0]}Y{ends[1][1]}I{x - ends[0][0]}J{y - ends[0][1]}D01*")
        self.at, self.last = ends[1], 1
        self.straight()

    def idle(self) -> None:
        self.word(self.rng.choice(IDLE))

    def polarity(self) -> None:
        self.word(self.rng.choice(("%LPC*%", "%LPD*%")))

    def change(self) -> None:
        """Flashes mirrored, turned or scaled."""
        self.word(self.rng.choice(CHANGES))
        self.flashes()
        self.word(UNCHANGED)

    def objects(self, count: int) -> None:
        kinds = [self.flashes, self.flashes, self.draws, self.draws, self.region, self.define, self.choose, self.idle]
        if self.form in ("clear", "changed"):
            kinds += [self.arc] if self.is_in_block else [self.arc, self.polarity]
        kinds += [self.change] if self.form == "changed" else []
        for _ in range(count):
            self.rng.choice(kinds)()

    def block(self) -> None:
        self.word("%LPD*%")
        steps = [self.decimal(self.length(self.rng.randint(2_000, 9_000))) for _ in "xy"]
        self.word(f"%SRX{self.rng.randint(1, 3)}Y{self.rng.randint(1, 3)}I{steps[0]}J{steps[1]}*%")
        self.is_in_block = True
        self.begin()
        self.objects(self.rng.randint(2, 6))
        self.is_in_block = False
        if self.chance(80):
            self.word("%SR*%")
            self.begin()
            self.objects(self.rng.randint(2, 6))


class Drill(Random):
    """A drill file of hits, slots and routs, with points in all numbers."""

    def __init__(self, rng: random.Random):
        inch = rng.randrange(10) < 3
        super().__init__(rng, 4, inch)
        head = ["INCH" if inch else "METRIC"] + ["FMAT,2"] * self.chance(50)
        rng.shuffle(head)
        tools = rng.sample(range(1, 60), rng.randint(1, 5))
        self.rows = ["M48", *head, *(f"{self.tool(it)}C{self.pointed(self.size())}" for it in tools), "%"]
        self.rows += ["G90", "G05"] * self.chance(50)
        self.is_first = True
        for it in rng.sample(tools, len(tools)):
            self.rows.append(self.tool(it))
            for _ in range(rng.randint(1, 8)):
                self.hole()
        self.slot()
        self.rows += ["T0"] * self.chance(50) + ["M30", ""]
        self.lines = ["\n".join(self.rows)]

    def tool(self, number: int) -> str:
        return f"T{number:02d}" if self.chance(40) else f"T{number}"

    def pointed(self, value: int) -> str:
        text = self.decimal(value)
        return text if "." in text else text + ".0"

    def axis(self, name: str) -> str:
        far = self.length(SPAN * 1_000)
        return name + self.pointed(self.rng.randint(-far, far))

    def place(self, is_whole: bool = False) -> str:
        return "".join(map(self.axis, "XY" if is_whole else self.rng.choice(("XY", "XY", "X", "Y"))))

    def slot(self) -> None:
        self.rows.append(f"{self.place(True)}G85{self.place()}")

    def hole(self) -> None:
        how = self.rng.randrange(100)
        if how < 70 or self.is_first:
            self.rows.append(self.place(self.is_first or how < 50))
        elif how < 85:
            self.slot()
        elif how < 95:
            along = ["G01" + self.place() for _ in range(self.rng.randint(1, 3))]
            self.rows += ["G00" + self.place(True), "M15", *along, "M16", "G05"]
        else:
            self.rows.append("; X1.0Y1.0")
        self.is_first = False


def of(form: str, seed: str) -> bytes:
    rng = random.Random(f"{seed} {form}")
    return (Drill(rng) if form == "drill" else Copper(rng, form)).text()
