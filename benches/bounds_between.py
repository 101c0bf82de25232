"""Made packages whose copper outside the profile `between` reads, and how many of them it takes, by what `show` says."""
import math
import os
import random
import subprocess
import sys
import tempfile
from collections import Counter

import made_board
import runs
from bounds_files import FORMATS

FARTHEST, ARCS = 5 * 10**8, 50  # from 0 to places, in u; arc draws of a layer
KINDS = ("like", "whole", "any turn", "two radii", "one line", "small", "large", "quadrant")
PROVED = ", between two bounds, proved"


def is_meant(centre, start, end):
    """Whether an arc has a place: neither end is its centre, and ends at two distances are not too unlike."""
    (a, b), (c, d) = ((p[0] - centre[0], p[1] - centre[1]) for p in (start, end))
    turn, unlike = a * d - b * c, abs(a * a + b * b - c * c - d * d)
    return (a, b) != (0, 0) != (c, d) and (turn == 0 or unlike <= max((a - c) ** 2 + (b - d) ** 2, 2 * abs(turn)))


# Pads that are turned by a parameter, as KiCad writes them.
PADS = ["%AMRotRect*", "21,1,$1,$2,0,0,$3*%", "%AMOutline4P*", "4,1,4,$1,$2,$3,$4,$5,$6,$7,$8,$1,$2,$9*%"]


class Layer:
    """A copper file: figures, arc draws of every kind, macros with slanted lines, pads turned by degrees, round holes, odd sizes, also of pens, regions with arcs, blocks. `arcs` counts
    the draws, and `made` what else of the file is outside the profile; lengths are counted in the file's units. At 0 is a pad for both points.
    """

    def __init__(self, rng):
        self.rng, self.arcs, self.made, (digits, unit, self.unit) = rng, 0, Counter(), rng.choice(FORMATS)
        self.scale, self.most = 254 * 10**6 if unit == "IN" else 10**7, FARTHEST // self.unit
        self.lines = [
            f"%FSLAX{digits}Y{digits}*%",
            f"%MO{unit}*%",
            *self.apertures(),
            *self.macros(),
            *self.pads(),
            *self.holes(),
            *self.odds(),
            "%ADD60C,0.01*%",
            "G01*",
            "D60*",
            "X0Y0D03*",
        ]
        while self.arcs < ARCS:
            self.block() if rng.random() < 0.03 else self.object()
        self.lines += ["G01*", "M02*"]

    def apertures(self):
        size = lambda: f"{2 * self.step() * max(1, int(10 ** self.rng.uniform(0, 7)) // self.step()) / self.scale:.7f}"
        yield from (f"%ADD{10 + k}C,{size()}*%" for k in range(20))
        yield from (f"%ADD{30 + k}{name},{size()}X{size()}*%" for k, name in enumerate("RO"))

    def step(self):
        """Of inches a size is counted by 254 u, which have six decimals at most."""
        return 127 if self.scale % 127 == 0 else 1

    def place(self):
        return tuple(self.rng.randint(-self.most, self.most) for _ in "xy")

    def go(self, spot, code, before="", behind=""):
        self.lines.append(f"{before}X{spot[0]}Y{spot[1]}{behind}D0{code}*")

    def object(self):
        self.rng.choice(
            (
                self.arc,
                self.arc,
                self.arc,
                self.arc,
                self.draw,
                self.flash,
                self.area,
                self.macro,
                self.pad,
                self.holed,
                self.odd,
                self.bent,
            )
        )()

    def block(self):
        gap = self.rng.randrange(1, 10**7) * self.step() / self.scale
        self.lines.append(f"%SRX{self.rng.randrange(1, 4)}Y{self.rng.randrange(1, 3)}I{gap:.7f}J{-gap:.7f}*%")
        for _ in range(self.rng.randrange(1, 4)):
            self.object()
        self.lines.append("%SR*%")

    def pick(self, first, last):
        self.lines.append(f"D{self.rng.randint(first, last)}*")

    def pen(self):
        """A circle, at times one of an odd size."""
        odd = self.rng.random() < 0.2
        self.lines.append(f"D{self.rng.choice((80, 83)) if odd else self.rng.randint(10, 29)}*")
        self.made["draws with pens of odd sizes"] += odd

    def draw(self):
        self.pen()
        self.go(self.place(), 2)
        self.go(self.place(), 1, "G01")

    def flash(self):
        self.pick(10, 31)
        self.go(self.place(), 3)

    def area(self):
        first, *rest = [self.place() for _ in range(self.rng.randrange(3, 7))]
        self.lines += ["G01*", "G36*"]
        self.go(first, 2)
        for spot in [*rest, first]:
            self.go(spot, 1)
        self.lines.append("G37*")

    # ---- macros and regions

    def length(self, most):
        """A place or half a size for a macro."""
        return self.step() * self.rng.randint(1, most // self.step())

    def macros(self):
        """Macros of slanted lines and other primitives, by quarter turns."""
        for k in range(40, 50):
            yield f"%AMM{k}*"
            words = [self.primitive(10 ** self.rng.randint(3, 7)) for _ in range(self.rng.randrange(1, 5))]
            yield from (f"{word},{90 * self.rng.randrange(4)}*" for word in words[:-1])
            yield from (f"{words[-1]},{90 * self.rng.randrange(4)}*%", f"%ADD{k}M{k},0.1*%")

    def primitive(self, size):
        text = lambda u: f"{u / self.scale:.7f}"
        w, x, y, dx, dy = (self.length(size) * self.rng.choice((-1, 1)) for _ in range(5))
        w, end = 2 * abs(w) + self.odd_step(w), self.rng.choice(((x + dx, y + dy),) * 4 + ((x + dx, y), (x, y + dy)))
        return self.rng.choice(
            (f"20,1,{text(w)},{text(x)},{text(y)},{text(end[0])},{text(end[1])}",) * 3
            + (
                f"1,1,{text(w)},{text(x)},{text(y)}",
                f"21,1,{text(w)},{text(2 * abs(dx) + self.odd_step(dx))},{text(x)},{text(y)}",
                "20,1,0,0,0,0.1,0.1",
            )
        )

    def odd_step(self, seed):
        """What makes a size an odd number of u, at times."""
        return self.step() * (random.Random(seed).random() < 0.3)

    def pads(self):
        """Pads of layout tools, and outlines, turned by a parameter or by a number."""
        yield from PADS
        for k in range(50, 60):
            size = 10 ** self.rng.randint(3, 7)
            w, h, left, right = (f"{2 * self.length(size) / self.scale:.7f}" for _ in range(4))
            turn = self.rng.choice(
                (
                    f"{90 * self.rng.randrange(-4, 5)}",
                    f"{self.rng.randrange(-9000, 9000) / 10}",
                    f"{self.rng.uniform(-360, 360):.7f}",
                )
            )
            if k % 4 == 3:
                yield from (f"%AMP{k}*", f"{self.outline(size)},{turn}*%", f"%ADD{k}P{k}*%")
            elif k % 4 == 0:
                middle = self.rng.choice(("0,0", f"{left},-{right}"))
                corners = self.rng.randrange(3, 13)
                yield from (
                    f"%AMP{k}*",
                    f"21,1,{w},{h},0,0,{turn}*",
                    f"1,1,{w},{middle},{turn}*",
                    f"5,1,{corners},{middle},{self.across(right)},{turn}*",
                )
                yield from (
                    f"20,1,{h},0,0,{w},0,{turn}*%",
                    f"%ADD{k}P{k},{random.Random(w).randrange(1, 10 ** 3) / 10 ** 4:.4f}*%",
                )
            elif k % 4 == 1:
                yield f"%ADD{k}RotRect,{w}X{h}X{turn}*%"
            else:
                yield f"%ADD{k}Outline4P,-{left}X-{h}X{right}X-{h}X{w}X{h}X-{w}X{h}X{turn}*%"

    def across(self, size):
        """The diameter of a polygon: this, at times an odd number of u, or as Eagle writes it a product of a parameter of four decimals."""
        rng = random.Random(size)
        odd = f"{self.step() * (2 * rng.randrange(50, 10 ** 5) + 1) / self.scale:.7f}"
        return rng.choice((size, odd, "1.08239X$1", "$1x0.5412", f"{rng.uniform(.1, 3):.3f}X$1"))

    def outline(self, size):
        """An outline of some kind, either way round."""
        kind = self.rng.choice((self.chamfered, self.rounded, self.slotted, self.star))
        spots = kind(max(size, 10**4) // self.step())[:: self.rng.choice((1, -1))]
        places = (f"{v * self.step() / self.scale:.7f}" for spot in [*spots, spots[0]] for v in spot)
        return f"4,1,{len(spots)},{','.join(places)}"

    def chamfered(self, far):
        """A box without its corners."""
        (w, h), (a, b, c, d) = (self.rng.randint(far // 2, far) for _ in "xy"), (
            self.rng.randint(1, far // 5) for _ in range(4)
        )
        return [(-w, a - h), (a - w, -h), (w - b, -h), (w, b - h), (w, h - c), (w - c, h), (d - w, h), (-w, h - d)]

    def rounded(self, far):
        """A triangle up to a figure of twenty corners."""
        count, flat = self.rng.randrange(3, 21), self.rng.uniform(0.6, 1)
        turns = (2 * math.pi * (k + self.rng.uniform(0, 0.3)) / count for k in range(count))
        return [(round(far * math.cos(turn)), round(far * flat * math.sin(turn))) for turn in turns]

    def slotted(self, far):
        """A box with a slot, or an L."""
        a, b, c, h, deep = (self.rng.randint(far // 5, far) for _ in range(5))
        spots = [(-a, -h), (b + c, -h), (b + c, deep), (b, deep), (b, 0), (0, 0), (0, deep), (-a, deep)]
        return spots if self.rng.random() < 0.5 else spots[:5] + [(-a, 0)]

    def star(self, far):
        """Of three points up to eleven."""
        count, rng = self.rng.randrange(3, 12), self.rng
        places = (
            (
                math.pi * (k + rng.uniform(0, 0.3)) / count,
                far * (rng.uniform(0.7, 1) if k % 2 else rng.uniform(0.2, 0.4)),
            )
            for k in range(2 * count)
        )
        return [(round(r * math.cos(turn)), round(r * math.sin(turn))) for turn, r in places]

    def pad(self):
        self.pick(50, 59)
        self.go(self.place(), 3)
        self.made["flashes of turned pads"] += 1

    def holes(self):
        """Circles, rectangles and obrounds with a round hole; of the first eight the sum of a circle's diameters is a multiple of 4 u, and sizes are even."""
        for k in range(61, 73):
            hole, more, across = ((4 if k < 69 else 1) * self.length(10 ** self.rng.randint(3, 7)) for _ in "dxy")
            name = "CR"[k % 2] if k < 69 else "CRO"[k % 3]
            sizes = (hole + more, hole) if name == "C" else (hole + more, hole + across, hole)
            yield f"%ADD{k}{name},{'X'.join(f'{size / self.scale:.7f}' for size in sizes)}*%"

    def holed(self):
        self.pick(61, 72)
        self.go(self.place(), 3)
        self.made["flashes with a hole"] += 1

    def odds(self):
        """Circles, rectangles and obrounds of which at least one size is an odd number of u; no obround is 2 u wide, of which `between` takes
        no bounds with copper below."""
        for k, name in enumerate("CROCRO", 80):
            steps = [factor * (int(10 ** self.rng.uniform(0, 6)) // self.step()) + 1 for factor in (2, 1)]
            self.rng.shuffle(steps)
            sizes = (
                [next(it for it in steps if it % 2)]
                if name == "C"
                else [4 if name == "O" and it == 2 else it for it in steps]
            )
            yield f"%ADD{k}{name},{'X'.join(f'{it * self.step() / self.scale:.7f}' for it in sizes)}*%"

    def odd(self):
        self.pick(80, 85)
        self.go(self.place(), 3)
        self.made["flashes of odd sizes"] += 1

    def macro(self):
        self.pick(40, 49)
        self.go(self.place(), 3)
        self.made["flashes of macros"] += 1

    def bent(self):
        """Boxes whose corners are rounded outwards or inwards, or not, either way round, in one region."""
        self.lines += ["G75*", "G36*"]
        for _ in range(self.rng.randrange(1, 4)):
            (x, y), parts = self.place(), self.box()
            self.go((parts[0][0] + x, parts[0][1] + y), 2, "G01")
            last = parts[0]
            for centre, end, way in parts[1:]:
                word, offset = (
                    ("G01", "")
                    if centre is None
                    else ("G03" if way else "G02", f"I{centre[0] - last[0]}J{centre[1] - last[1]}")
                )
                self.go((end[0] + x, end[1] + y), 1, word, offset)
                last = end
            self.made["contours with arcs"] += any(part[0] for part in parts[1:])
        self.lines += ["G37*", "G01*"]

    def box(self):
        """A spot, and parts (centre or None, end, counterclockwise); over 9 u wide."""
        rng, r = self.rng, 9 + int(10 ** self.rng.uniform(0, math.log10(self.most // 4)))
        w, h = (r + rng.choice((0, 1, rng.randrange(1, 4 * r))) for _ in "xy")
        parts = [((r, 0), None, True)]
        for inner, outer, first, last in (
            ((w, r), (w + r, 0), (w, 0), (w + r, r)),
            ((w, h), (w + r, h + r), (w + r, h), (w, h + r)),
            ((r, h), (0, h + r), (r, h + r), (0, h)),
            ((r, r), (0, 0), (0, r), (r, 0)),
        ):
            parts += [
                (first, None, True),
                (last, *rng.choice(((inner, True), (inner, True), (outer, False), (None, True)))),
            ]
        if rng.random() < 0.5:  # the other way round
            spots = [spot for spot, _, _ in parts]
            parts = [
                (spots[-1], None, True),
                *((spot, centre, not way) for spot, (_, centre, way) in zip(spots[-2::-1], parts[:0:-1])),
            ]
        return [parts[0][0], *((centre, spot, way) for spot, centre, way in parts[1:])]

    # ---- arcs

    def ends(self, kind):
        """The places of both ends about the centre."""
        rng = self.rng
        most = 3 if kind == "small" else math.log10(self.most) - 1 if kind != "large" else math.log10(self.most)
        r, t = 10 ** rng.uniform(0 if kind == "small" else 2, most), rng.choice(
            (rng.uniform(0, 7), rng.randrange(4) * math.pi / 2)
        )
        at = lambda turn, far=r: (round(far * math.cos(turn)), round(far * math.sin(turn)))
        (x, y), further = at(t), rng.choice(
            (rng.uniform(0, 6.28), 10 ** rng.uniform(-4, 0), -(10 ** rng.uniform(-4, 0)))
        )
        if kind == "whole":
            return (x, y), (x, y)
        if kind == "one line":
            k = rng.choice((-3, -2, -1, 2, 3))
            return (x, y), (k * x, k * y)
        if kind == "two radii":
            return (x, y), at(t + further, r * rng.uniform(0.7, 1.4) if rng.random() < 0.5 else r + rng.randint(-9, 9))
        return (x, y), rng.choice((at(t + further), rng.choice(((-y, x), (-x, -y), (y, -x), (x, -y), (-x, y), (y, x)))))

    def arc(self):
        kind, centre, way = self.rng.choice(KINDS), self.place(), self.rng.random() < 0.5
        if kind == "quadrant":
            self.quadrant(centre, way)
            return
        a, b = ((centre[0] + x, centre[1] + y) for x, y in self.ends(kind))
        if not is_meant(centre, *((a, b) if way else (b, a))) or max(map(abs, (*a, *b))) > 4 * self.most:
            self.arc()
            return
        self.put(centre, a, b, 3 if way else 2, "G75*")

    def quadrant(self, centre, way):
        """At most a right angle, told without signs."""
        r, (sx, sy) = self.rng.randrange(1, self.most), (self.rng.choice((-1, 1)) for _ in "xy")
        a, b = (centre[0] + sx * r, centre[1]), (centre[0], centre[1] + sy * r)
        self.put(centre, *((a, b) if way == (sx * sy > 0) else (b, a)), 3 if way else 2, "G74*")

    def put(self, centre, a, b, code, quadrants):
        """The words of an arc from a to b, in one of their forms."""
        i, j = (c - s if quadrants == "G75*" else abs(c - s) for c, s in zip(centre, a))
        offsets = "".join(f"{letter}{v}" for letter, v in (("I", i), ("J", j)) if v or not i and not j)
        self.pen()
        self.lines.append(quadrants)
        self.go(a, 2)
        if self.rng.random() < 0.5:
            self.lines.append(f"G0{code}*")
            self.go(b, 1, "", offsets)
        else:
            self.go(b, 1, f"G0{code}", offsets)
        self.lines.append("G01*")
        self.arcs += 1


def package(rng, folder):
    """A package of two layers, a through drill file and two points; how many arc draws it has, and what else outside the profile."""
    layers = [Layer(rng) for _ in "tb"]
    files = {f"{k}.gbr": its.lines for k, its in enumerate(layers)}
    files["d.drl"] = [
        "M48",
        "METRIC",
        "T1C0.3",
        "%",
        "T1",
        *(f"X{rng.uniform(-40, 40):.4f}Y{rng.uniform(-40, 40):.4f}" for _ in range(9)),
        "M30",
    ]
    points = [f"327{name}                J1    -{k + 1}          A01X+{k:06}Y+000000" for k, name in enumerate("AB")]
    made_board.put(
        folder,
        {
            **files,
            "n.ipc": [made_board.NETLIST, *points, "999"],
            "m.json": [made_board.manifest(["0.gbr", "1.gbr"], "d.drl")],
        },
    )
    return sum((its.made for its in layers), Counter({"arc draws": sum(its.arcs for its in layers)}))


def tried(packages, seed):
    """Prints how many packages are taken; 1 where one is not."""
    taken, count = 0, Counter()
    for number in range(packages):
        with tempfile.TemporaryDirectory() as folder:
            count += package(random.Random(f"{seed} {number}"), folder)
            told = subprocess.run(
                [sys.executable, os.path.join(runs.TOP, "tools", "show"), folder, "-q"],
                stdout=subprocess.PIPE,
                check=False,
            )
            said = told.stdout.decode().strip().split("\n")[-1].replace(folder, "board")
        if PROVED in said:
            taken += 1
        else:
            print(f"not taken: package {number} of seed {seed}: {said}")
    print(f"{taken} of {packages} packages taken: {', '.join(f'{many} {what}' for what, many in count.items())}")
    return 0 if taken == packages else 1
