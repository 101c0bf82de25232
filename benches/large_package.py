"""A made package as a CAD tool writes a large board: planes of one contour each, tracks with arcs, and turned pads
with rounded corners.

A plane is an outline with a clearance round each via of another net, discs of many short edges; clearances of two
vias that are near run together. Each hole of it hangs by a cut-in, run along twice, from its leftmost corner on the
nearest edge left of it, so corners meet and one hole hangs on the next. Lengths are nanometres. """
import collections
import math
import random

import made_board

PITCH, NEAR = 2_400_000, 800_000  # of vias, and of a second one below
RING, CLEAR = 500_000, 525_000  # a via's pad, and a clearance's radius
BAND = 100_000  # of edges at about one height
ROUNDED = """%AMRoundRect*
0 Rectangle with rounded corners*
0 $1 Rounding radius*
0 $2 $3 $4 $5 $6 $7 $8 $9 X,Y pos of 4 corners*
0 Add a 4 corners polygon primitive as box body*
4,1,4,$2,$3,$4,$5,$6,$7,$8,$9,$2,$3,0*
0 Add four circle primitives for the rounded corners*
1,1,$1+$1,$2,$3*
1,1,$1+$1,$4,$5*
1,1,$1+$1,$6,$7*
1,1,$1+$1,$8,$9*
0 Add four rect primitives between the rounded corners*
20,1,$1+$1,$2,$3,$4,$5,0*
20,1,$1+$1,$4,$5,$6,$7,0*
20,1,$1+$1,$6,$7,$8,$9,0*
20,1,$1+$1,$8,$9,$2,$3,0*%""".split(
    "\n"
)
CORNER = 0.09  # of a pad of 0.5 mm by 0.4 mm, in millimetres
Via = collections.namedtuple("Via", "x y net")


def around(x, y, steps, first, past):
    """Whole places clockwise on a clearance's circle, from an angle down to another, in parts of a turn."""
    count = max(2, round((first - past) * steps))
    angles = (2 * math.pi * (first + (past - first) * k / count) for k in range(count + 1))
    return [(round(x + CLEAR * math.cos(it)), round(y + CLEAR * math.sin(it))) for it in angles]


def clearance(vias, steps):
    """The hole round one via, or round two, the second below the first."""
    x, y = vias[0].x, vias[0].y
    if len(vias) == 1:
        return around(x, y, steps, 1, 0)[:-1]
    below = vias[1].y
    part = math.acos((y - below) / 2 / CLEAR) / 2 / math.pi
    return around(x, y, steps, 0.75 - part, part - 0.25)[:-1] + around(x, below, steps, 0.25 - part, part - 0.75)[:-1]


class Plane:
    """One contour: corners, for each the next one, and by bands of height the corners at which edges begin."""

    def __init__(self, outline):
        self.corners, self.after, self.bands = [], [], collections.defaultdict(list)
        self.put(outline)

    def put(self, corners):
        first = len(self.corners)
        self.corners += corners
        self.after += [*range(first + 1, len(self.corners)), first]
        for k in range(first, len(self.corners)):
            self.file(k)
        return first

    def file(self, k):
        low, high = sorted((self.corners[k][1], self.corners[self.after[k]][1]))
        for band in range(low // BAND, high // BAND + 1):
            self.bands[band].append(k)

    def hang(self, hole):
        """Joins a hole to the nearest edge left of its leftmost corner."""
        start = hole.index(min(hole))
        x, y = hole[start]
        reach, edge = max(self.left_of(x, y))
        first = self.put(hole[start:] + hole[:start])
        last = len(self.corners)
        self.corners += [(reach, y), hole[start], (reach, y)]
        self.after += [first, last + 2, self.after[edge]]
        self.after[edge], self.after[last - 1] = last, last + 1
        self.file(last + 2)

    def left_of(self, x, y):
        for k in self.bands[y // BAND]:
            (x1, y1), (x2, y2) = self.corners[k], self.corners[self.after[k]]
            if y1 != y2 and min(y1, y2) <= y <= max(y1, y2) and min(x1, x2) <= x:
                reach = x1 + round((x2 - x1) * (y - y1) / (y2 - y1))
                if reach <= x:
                    yield reach, k

    def walk(self):
        found, k = [], 0
        while not found or k:
            if not found or found[-1] != self.corners[k]:
                found.append(self.corners[k])
            k = self.after[k]
        return found


class Board:
    """`columns` by `rows` places for vias, some with a second one below; two neighbours are a net, or each has the
    net of a plane."""

    def __init__(self, columns, rows, layers, parts, seed=1):
        self.columns, self.rows, self.layers, self.parts = columns, rows, layers, parts
        self.chance = random.Random(seed)
        self.planes = layers // 2
        self.places, self.nets = [], []  # the vias of each place; of a net its two vias and its layer
        for k in range(columns * rows // 2):
            column, row = 2 * k % columns, 2 * k // columns
            is_of_plane, steps = self.chance.random() < 0.15, self.chance.randrange(-100_000, 100_000, 1_000)
            pair = []
            for beside in (0, 1):
                x, y = (column + beside + 1) * PITCH + steps, (row + 1) * PITCH + (100_000 if beside else -100_000)
                pair.append(Via(x, y, f"P{self.chance.randrange(self.planes)}" if is_of_plane else f"N{k}"))
                second = Via(x, y - NEAR, f"P{self.chance.randrange(self.planes)}")
                self.places.append([pair[-1], second] if self.chance.random() < 0.12 else [pair[-1]])
            self.nets += [] if is_of_plane else [(*pair, 2 * self.chance.randrange((layers + 1) // 2))]

    def pads(self):
        """Of each part two pads above their vias: place and net."""
        return [Via(vias[0].x, vias[0].y + 700_000, vias[0].net) for vias in self.places[: 2 * self.parts]]

    def plane(self, number):
        """The contour of a plane; its clearances have 28 edges and more, and each plane others."""
        wide, high = (self.columns + 1) * PITCH, (self.rows + 1) * PITCH
        plane = Plane([(0, 0), (wide, 0), (wide, high), (0, high)])
        others = ([via for via in vias if via.net != f"P{number}"] for vias in self.places)
        for hole in sorted((clearance(vias, 28 + 2 * number) for vias in others if vias), key=min):
            plane.hang(hole)
        return plane.walk()

    def track(self, one, other):
        """To the right, by an arc upwards, and to the right."""
        x, r = one.x + 1_000_000, 150_000
        return [
            f"X{one.x}Y{one.y}D02*",
            f"G01X{x}Y{one.y}D01*",
            f"G03X{x + r}Y{one.y + r}I0J{r}D01*",
            f"G01X{x + r}Y{other.y}D01*",
            f"X{other.x}Y{other.y}D01*",
        ]

    def copper(self, layer):
        x, y, turn = 0.25 - CORNER, 0.2 - CORNER, math.sqrt(0.5)
        corners = [((a - b) * turn, (a + b) * turn) for a, b in ((-x, -y), (x, -y), (x, y), (-x, y))]
        pad = "X".join(f"{v:.6f}" for v in (CORNER, *(v for corner in corners for v in corner)))
        lines = [*made_board.COPPER, "G75*", "G01*", f"%ADD10C,{RING / 1e6}*%", "%ADD11C,0.15*%", "%LPD*%"]
        lines += [*ROUNDED, f"%ADD12RoundRect,{pad}*%"] if layer == 0 else []
        if layer % 2:
            lines += made_board.region(self.plane(layer // 2))
        lines += ["D10*", *(f"X{via.x}Y{via.y}D03*" for vias in self.places for via in vias), "D11*"]
        for one, other, where in self.nets:
            lines += self.track(one, other) if where == layer else []
        if layer == 0:
            for pad in self.pads():
                lines += [f"X{pad.x}Y{pad.y}D02*", f"X{pad.x}Y{pad.y - 700_000}D01*"]
            lines += ["D12*", *(f"X{pad.x}Y{pad.y}D03*" for pad in self.pads())]
        return [*lines, "M02*"]

    def write(self, folder):
        """Writes the files; how many bytes they have."""
        names = [f"l{k}.gbr" for k in range(self.layers)]
        vias = [via for vias in self.places for via in vias]
        point = lambda code, access, via: made_board.record(code, via.net, access, via.x // 1000, via.y // 1000)
        holes = [f"X{via.x / 1e6:.3f}Y{via.y / 1e6:.3f}" for via in vias]
        points = [*(point("317", "00", via) for via in vias), *(point("327", "01", pad) for pad in self.pads())]
        files = {name: self.copper(k) for k, name in enumerate(names)}
        files["n.ipc"] = [made_board.NETLIST, *points, "999"]
        files["pth.drl"] = ["M48", "METRIC", "T1C0.25", "%", "T1", *holes, "M30"]
        return made_board.put(folder, {**files, "m.json": [made_board.manifest(names, "pth.drl")]})
