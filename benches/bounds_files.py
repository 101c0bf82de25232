"""Random copper files by form, with what a place is by benches/bounds_model.py: for the bench of bounds."""
import math
from fractions import Fraction as Q

import bounds_model as model
from bounds_model import FINE

FORMS = (
    "flashes",
    "polygons",
    "holes",
    "macros",
    "exposure off",
    "thermals",
    "draws",
    "box and obround pens",
    "arcs",
    "single quadrants",
    "small arcs",
    "two radii",
    "regions",
    "arcs in regions",
    "small circles in regions",
    "pies and fans",
    "clear",
    "changed",
    "blocks",
    "steps",
)
FORMATS = (("46", "MM", 10), ("46", "MM", 10), ("47", "MM", 1), ("24", "IN", 25400), ("26", "IN", 254))
TRIPLES = ((3, 4, 5), (5, 12, 13), (8, 15, 17), (7, 24, 25), (20, 21, 29), (1, 0, 1))
MIRRORS = {"N": (False, False), "X": (True, False), "Y": (False, True), "XY": (True, True)}


class File:
    """Lines, and the objects in their order: (dark, sure, perhaps, middle, reach). A length is counted in the file's units."""

    def __init__(self, rng, form):
        self.rng, self.form = rng, form
        digits, unit, self.unit = rng.choice(FORMATS)
        self.scale = 254 * 10**6 if unit == "IN" else 10**7
        self.lines = [f"%FSLAX{digits}Y{digits}*%", f"%MO{unit}*%", "G75*"]
        self.objects, self.number, self.dark = [], 10, True
        self.size = rng.choice((200, 3000, 30000)) if self.unit < 1000 else rng.choice((20, 200, 2000))
        kinds = [form] + [rng.choice(("flashes", "draws", "regions")) for _ in range(rng.randrange(2))]
        for k in range(rng.randrange(1, 4)):
            self.make(kinds[0] if k == 0 else rng.choice(kinds))
        self.lines.append("M02*")

    def text(self):
        return "\n".join(self.lines) + "\n"

    def make(self, form):
        getattr(self, form.replace(" ", "_"))()

    def fine(self, spot):
        return tuple(v * self.unit * FINE for v in spot)

    def spot(self, times=1):
        return tuple(self.rng.randint(-self.size, self.size) * times for _ in "xy")

    def add(self, sure, middle, reach, perhaps=None):
        self.objects.append((self.dark, sure, perhaps or sure, middle, reach))

    def length(self):
        """A decimal for a size, and its quarters of a u."""
        text = f"{self.rng.randrange(1, 2 * self.size) * self.unit / self.scale:.{self.rng.choice((4, 6, 7, 7))}f}"
        return (text, Q(text) * self.scale * FINE) if Q(text) > 0 else self.length()

    def define(self, words):
        self.number += 1
        self.lines += [f"%ADD{self.number}{words}*%", f"D{self.number}*"]

    def go(self, spot, operation):
        self.lines.append(f"X{spot[0]}Y{spot[1]}D0{operation}*")

    # ---- apertures: words, shape about 0, reach

    def standard(self, names="CRO"):
        name = self.rng.choice(names)
        (a, w), (b, h) = self.length(), self.length()
        if name == "C":
            return f"C,{a}", model.disc((0, 0), w / 2), w / 2
        r, reach = min(w, h) / 2, max(w, h)
        x, y = w / 2 - r, h / 2 - r
        return f"{name},{a}X{b}", model.box((0, 0), w, h) if name == "R" else model.capsule((-x, -y), (x, y), r), reach

    def polygon(self):
        (a, d), n, turn = (
            self.length(),
            self.rng.randrange(3, 13),
            self.rng.choice((Q(0), Q(90), Q(self.rng.randrange(-3600, 3600), 10))),
        )
        return f"P,{a}X{n}X{float(turn)}", model.regular((0, 0), d, n, turn), d / 2

    def flash(self, aperture):
        words, shape, reach = aperture
        spot = self.spot()
        self.define(words)
        if self.form == "flashes" and self.rng.random() < 0.5:
            self.go(spot, 3)
            self.put(shape, spot, reach)
            spot = self.spot()
            self.lines.append(f"X{spot[0]}Y{spot[1]}*")
        else:
            self.go(spot, 3)
        self.put(shape, spot, reach)

    def put(self, shape, spot, reach):
        self.add(model.changed(shape, self.fine(spot)), self.fine(spot), reach)

    def flashes(self):
        self.flash(self.standard())

    def polygons(self):
        self.flash(self.polygon())

    def holes(self):
        words, shape, reach = self.rng.choice((self.standard, self.polygon))()
        text, hole = self.length()
        words += {"P": "X0" * (3 - words.count("X") - 1)}.get(words[0], "") + f"X{text}"
        self.flash((words, model.without(shape, model.disc((0, 0), hole / 2)), reach))

    # ---- macros

    def primitive(self, on=1):
        """A body and a shape, turned."""
        rng = self.rng
        (a, w), (b, h), (c, x), (d, y), (e, x2), (f, y2) = (self.length() for _ in range(6))
        code, turn = rng.choice((1, 20, 21, 22, 4, 5)), rng.choice((Q(0), Q(90), Q(rng.randrange(-36000, 36000), 100)))
        if code == 1:
            body, shape = f"1,{on},{a},{c},{d}", model.disc((x, y), w / 2)
        elif code == 20:
            body, shape = f"20,{on},{a},{c},-{d},{e},{f}", model.beside((x, -y), (x2, y2), w / 2)
        elif code == 21:
            body, shape = f"21,{on},{a},{b},{c},{d}", model.box((x, y), w, h)
        elif code == 22:
            body, shape = f"22,{on},{a},{b},{c},{d}", model.box((x + w / 2, y + h / 2), w, h)
        elif code == 5:
            n = rng.randrange(3, 13)
            body, shape = f"5,{on},{n},{c},{d},{a}", model.regular((x, y), w, n, Q(0))
        else:
            body, shape = f"4,{on},4,0,0,{c},0,{e},{f},0,{d},0,0", model.parity(
                [(0, 0), (x, Q(0)), (x2, y2), (Q(0), y)]
            )
        return f"{body},{float(turn)}", model.changed(shape, (0, 0), degrees=turn), w + h + x + y + x2 + y2

    def macro(self, parts):
        """parts: (on, body, shape, reach)."""
        self.number += 1
        self.lines.append("%AMM" + f"{self.number}*" + "*".join(body for _, body, *_ in parts) + "*%")
        self.number -= 1
        shape = parts[0][2] if len(parts) == 1 else model.layered([(bool(on), shape) for on, _, shape, _ in parts])
        return f"M{self.number + 1}", shape, max(part[3] for part in parts)

    def macros(self):
        self.flash(self.macro([(1, *self.primitive()) for _ in range(self.rng.randrange(1, 3))]))

    def exposure_off(self):
        self.flash(self.macro([(on, *self.primitive(on)) for on in (1, 0, self.rng.randrange(2))]))

    def thermals(self):
        (a, outer), (b, inner), (c, x), (d, y) = (self.length() for _ in range(4))
        if outer < inner:
            a, outer, b, inner = b, inner, a, outer
        gap, turn = f"{float(Q(b)) / 3:.6f}", Q(self.rng.randrange(0, 3600), 10)
        wide = Q(gap) * self.scale * FINE
        if outer == inner or wide * wide * 2 >= outer * outer:
            return self.thermals()
        shape = model.disc((x, y), outer / 2)
        for off in (
            model.disc((x, y), inner / 2),
            model.box((x, y), 2 * outer, wide),
            model.box((x, y), wide, 2 * outer),
        ):
            shape = model.without(shape, off)
        body = f"7,{c},{d},{a},{b},{gap},{float(turn)}"
        return self.flash(self.macro([(1, body, model.changed(shape, (0, 0), degrees=turn), outer + x + y)]))

    # ---- draws

    def draws(self):
        words, _, r = self.standard("C")
        a, b = self.spot(), self.spot()
        self.define(words)
        self.lines.append("G01*")
        self.go(a, 2)
        self.go(b, 1)
        self.add(
            model.capsule(self.fine(a), self.fine(b), r), self.fine(a), r + model.distance(self.fine(a), self.fine(b))
        )

    def box_and_obround_pens(self):
        (u, w), (v, h), name = self.length(), self.length(), self.rng.choice("RO")
        a, b = self.spot(), self.spot()
        if self.rng.random() < 0.3:
            b = (a[0], b[1]) if self.rng.random() < 0.5 else (b[0], a[1])
        self.define(f"{name},{u}X{v}")
        self.lines.append("G01*")
        self.go(a, 2)
        self.go(b, 1)
        one, two, r = self.fine(a), self.fine(b), min(w, h) / 2
        shape = (
            model.swept_box(one, two, w, h) if name == "R" else model.swept_capsule(one, two, (w / 2 - r, h / 2 - r), r)
        )
        self.add(shape, one, w + h + model.distance(one, two))

    def on_circle(self, most):
        a, b, c = self.rng.choice(TRIPLES)
        m = most // c
        x, y = self.rng.choice(((a, b), (b, a)))
        return x * m * self.rng.choice((-1, 1)), y * m * self.rng.choice((-1, 1))

    def arc(self, c, a, b, anticlockwise):
        """Along an arc from a to b about c, by words of the file."""
        start, end = (a, b) if anticlockwise else (b, a)
        self.lines.append(f"G0{3 if anticlockwise else 2}X{end[0]}Y{end[1]}I{c[0] - start[0]}J{c[1] - start[1]}D01*")

    def drawn_arc(self, a, b, words=None):
        """About a place; a and b are from there."""
        text, pen = self.length() if words is None else words
        c, way = self.spot(), self.rng.random() < 0.5
        a, b = ((c[0] + p[0], c[1] + p[1]) for p in (a, b))
        self.define(f"C,{text}")
        self.go(a if way else b, 2)
        self.arc(c, a, b, way)
        fine = [self.fine(p) for p in (c, a, b)]
        sure, perhaps = model.bent(*fine, pen / 2, FINE)
        self.add(sure, fine[0], pen + 2 * model.distance(*fine[:2]), perhaps)

    def arcs(self):
        r = self.rng.randrange(1, self.size + 1) * 145 * 13 * 17
        a, b = self.on_circle(r), self.on_circle(r)
        self.drawn_arc(a, b if math.hypot(*a) == math.hypot(*b) else a)

    def small_arcs(self):
        r = max(1, self.rng.randrange(900, 1300) // self.unit)
        self.drawn_arc(
            (r, 0),
            (r, 0),
            (("0.0000002", Q(2 * FINE)) if self.rng.random() < 0.2 and self.scale == 10**7 else self.length()),
        )

    def two_radii(self):
        r, t = self.rng.randrange(10, 1 + 100 * self.size), self.rng.random() * 7
        a, far = (r, self.rng.choice((0, 0, r // 3))), r + self.rng.choice((-2, -1, 1, 2))
        b = (round(math.cos(t) * far), round(math.sin(t) * far))
        if b != (0, 0) and a[0] * b[1] != a[1] * b[0]:
            self.drawn_arc(a, b)
        else:
            self.two_radii()

    def single_quadrants(self):
        """A quarter circle, by distances without signs."""
        text, pen = self.length()
        r, c = self.rng.randrange(1, 100 * self.size), self.spot()
        sx, sy = self.rng.choice((-1, 1)), self.rng.choice((-1, 1))
        a, b = (c[0] + sx * r, c[1]), (c[0], c[1] + sy * r)
        way = sx * sy > 0
        self.define(f"C,{text}")
        self.go(a, 2)
        self.lines.append(f"G74*\nG0{3 if way else 2}X{b[0]}Y{b[1]}I{r}J0D01*\nG75*")
        fine = [self.fine(p) for p in ((c, a, b) if way else (c, b, a))]
        sure, perhaps = model.bent(*fine, pen / 2, FINE)
        self.add(sure, fine[0], pen + 2 * model.distance(*fine[:2]), perhaps)

    # ---- regions

    def area(self, spots):
        self.lines += ["G36*", "G01*"]
        self.go(spots[0], 2)
        for spot in spots[1:] + spots[:1]:
            self.go(spot, 1)
        self.lines.append("G37*")

    def regions(self):
        spots = [self.spot() for _ in range(self.rng.randrange(3, 7))]
        self.area(spots)
        self.add(model.parity([self.fine(p) for p in spots]), (0, 0), 2 * self.size * self.unit * FINE)

    def arcs_in_regions(self, r=None):
        """A disc, a D, or a square with a clearance about a place and a cut to it."""
        r = r or self.rng.randrange(1, self.size + 1) * 65
        c, kind, way = self.spot(), self.rng.choice(("disc", "segment", "keyhole")), self.rng.random() < 0.5
        at = lambda x, y: (c[0] + x, c[1] + y)
        a = b = at(r, 0)
        if kind == "segment":
            a, b = (
                at(*self.rng.choice(((r, 0), (0, r), (-r, 0), (r * 3 // 5, r * 4 // 5), (r * 5 // 13, -r * 12 // 13))))
                for _ in "ab"
            )
            kind = "disc" if a == b else kind
        w = 3 * r
        square = [at(-w, -w), at(w, -w), at(w, 0), at(r, 0)]
        self.lines += ["G36*", "G01*"]
        if kind == "keyhole":
            self.go(square[0], 2)
            for spot in square[1:]:
                self.go(spot, 1)
        else:
            self.go(a if way else b, 2)
        self.arc(c, a, b, way)
        self.lines.append("G01*")
        for spot in (
            [at(w, 0), at(w, w), at(-w, w), square[0]]
            if kind == "keyhole"
            else [a if way else b]
            if kind == "segment"
            else []
        ):
            self.go(spot, 1)
        self.lines.append("G37*")
        shape = model.bow(self.fine(c), self.fine(a), self.fine(b))
        if kind == "keyhole":
            shape = model.odd_of([shape, model.box(self.fine(c), *[2 * w * self.unit * FINE] * 2)])
        self.add(shape, self.fine(c), 2 * w * self.unit * FINE)

    def small_circles_in_regions(self):
        self.arcs_in_regions(max(1, self.rng.randrange(900, 1300) // self.unit))

    def pies_and_fans(self):
        """Ends not equally far from the centre, with the copper on its side or beyond."""
        rng, c = self.rng, self.spot()
        turn, wide = rng.random() * 6.28, math.radians(rng.choice((20, 80, 130, 200, 260, 300, 340, 357)))
        r = rng.randrange(20, 30 + 100 * self.size)
        at = lambda far, angle: (c[0] + round(far * math.cos(angle)), c[1] + round(far * math.sin(angle)))
        a, b, is_pie = at(r, turn), at(r + rng.choice((-3, -2, -1, 1, 2)), turn + wide), rng.random() < 0.5
        fan = [c] if is_pie else [at(3 * r, turn + wide * k / 24) for k in range(24, -1, -1)]
        self.lines += ["G36*", "G01*"]
        self.go(a, 2)
        self.arc(c, a, b, True)
        self.lines.append("G01*")
        for spot in [*fan, a]:
            self.go(spot, 1)
        self.lines.append("G37*")
        c, a, b, *fan = map(self.fine, (c, a, b, *fan))
        near, far = sorted((model.distance(c, a), model.distance(c, b)))
        within = model.sector(c, a, b)
        pie = model.between(*(model.both([within, model.disc(c, r)]) for r in (near, far + 1)))
        self.add(model.odd_of([model.parity([a, c, b, *fan]), pie]), c, 4 * far)

    # ---- words that change what follows

    def clear(self):
        for _ in range(self.rng.randrange(1, 3)):
            self.make(self.rng.choice(FORMS[:16]))
        self.dark = not self.dark
        self.lines.append("%LPC*%")
        for _ in range(self.rng.randrange(1, 3)):
            self.make(self.rng.choice(FORMS[:16]))
        self.dark = not self.dark
        self.lines.append("%LPD*%")

    def changing(self):
        """Words, and what they mean to a shape about 0."""
        name = self.rng.choice(list(MIRRORS))
        turn, size = self.rng.choice((Q(0), Q(90), Q(270), Q(self.rng.randrange(-3600, 3600), 10))), self.rng.choice(
            (Q(1), Q(1), Q(1, 2), Q(13, 10))
        )
        return f"%LM{name}*%\n%LR{float(turn)}*%\n%LS{float(size)}*%", {
            "mirror": MIRRORS[name],
            "degrees": turn,
            "size": size,
        }

    def changed(self):
        words, how = self.changing()
        parts = [(1, *self.primitive())]
        aperture = self.rng.choice((self.standard, self.polygon, lambda: self.macro(parts)))()
        self.define(aperture[0])
        self.lines.append(words)
        spot = self.spot()
        self.go(spot, 3)
        self.add(model.changed(aperture[1], self.fine(spot), **how), self.fine(spot), 2 * aperture[2])
        self.lines.append("%LMN*%\n%LR0*%\n%LS1*%")

    def blocks(self):
        """A block of some objects, flashed twice, clear or changed."""
        outer, self.objects = self.objects, []
        self.number += 1
        block = self.number
        self.lines.append(f"%ABD{block}*%")
        for _ in range(self.rng.randrange(1, 3)):
            self.make(
                self.rng.choice(
                    ("flashes", "draws", "macros", "regions", "holes") + (("clear",) if self.rng.random() < 0.3 else ())
                )
            )
        self.lines.append(f"%AB*%\nD{block}*")
        inner, self.objects = self.objects, outer
        for dark in (True, self.rng.random() < 0.7):
            words, how = self.changing() if self.rng.random() < 0.5 else ("", {})
            self.lines.append(words + ("" if dark else "%LPC*%"))
            spot = self.spot()
            self.go(spot, 3)
            self.lines.append("%LPD*%\n%LMN*%\n%LR0*%\n%LS1*%")
            at = self.fine(spot)
            for is_dark, sure, perhaps, middle, reach in inner:
                self.objects.append(
                    (
                        is_dark == dark,
                        model.changed(sure, at, **how),
                        model.changed(perhaps, at, **how),
                        at,
                        2 * (reach + model.distance(middle, (0, 0))),
                    )
                )

    def steps(self):
        first, (text_x, x), (text_y, y) = len(self.objects), *(self.whole_length() for _ in "xy")
        columns, rows = self.rng.randrange(1, 4), self.rng.randrange(1, 3)
        self.lines.append(f"%SRX{columns}Y{rows}I{text_x}J{text_y}*%")
        for _ in range(self.rng.randrange(1, 3)):
            self.make(self.rng.choice(FORMS[:17]))
        self.lines.append("%SR*%")
        once, self.objects = self.objects[first:], self.objects[:first]
        for i in range(columns):
            for j in range(rows):
                for dark, sure, perhaps, middle, reach in once:
                    by = (i * x, j * y)
                    self.objects.append(
                        (
                            dark,
                            model.changed(sure, by),
                            model.changed(perhaps, by),
                            (middle[0] + by[0], middle[1] + by[1]),
                            reach,
                        )
                    )

    def whole_length(self):
        n = self.rng.randrange(0, 2 * self.size)
        return f"{n * self.unit / self.scale:.7f}", n * self.unit * FINE

    # ---- answers

    def sure(self):
        return model.layered(
            [(dark, model.within(sure if dark else perhaps, *reach)) for dark, sure, perhaps, *reach in self.objects]
        )

    def perhaps(self):
        return model.layered(
            [(dark, model.within(perhaps if dark else sure, *reach)) for dark, sure, perhaps, *reach in self.objects]
        )
