"""What camv-rnd reads, by the SVG that it writes: lines, polygons, discs, boxes and arcs, in order; some clear."""
import math
import os
import re
import tempfile
from typing import List, NamedTuple, Optional, Tuple

from . import BARE, COPPER, NEAR
from .others import States, Told, put, run, version

# Where it cannot read a file it says so, and does not end.
SECONDS, UNREAD = 30, b"Can not load file"
# Micrometres: its SVG has millimetres of four decimals, and circles are told by corners.
TOLERANCE, MARGIN = 30, 5
# Copper below 0 is left out of its drawing, so what can be moved is read this far off.
MOVED = {"mm": 500, "inch": 20}
MILLIMETRES = {"mm": 1.0, "inch": 25.4}
CHORDS = 96
SPOT = Tuple[float, float]
NUMBER = re.compile(r"-?[\d.]+(?:e-?\d+)?")


class Shape(NamedTuple):
    """A path of corners with a round pen, or a filled polygon; in millimetres."""

    is_dark: bool
    is_filled: bool
    corners: List[SPOT]
    radius: float


def apart(p: SPOT, a: SPOT, b: SPOT) -> float:
    """How far a place is from a segment."""
    dx, dy = b[0] - a[0], b[1] - a[1]
    square = dx * dx + dy * dy
    along = max(0.0, min(1.0, ((p[0] - a[0]) * dx + (p[1] - a[1]) * dy) / square)) if square else 0.0
    return math.hypot(p[0] - a[0] - along * dx, p[1] - a[1] - along * dy)


def has(corners: List[SPOT], p: SPOT) -> bool:
    """Whether a polygon has a place, by even and odd."""
    odd, (ax, ay) = False, corners[-1]
    for bx, by in corners:
        if (ay > p[1]) != (by > p[1]) and p[0] < ax + (p[1] - ay) * (bx - ax) / (by - ay):
            odd = not odd
        ax, ay = bx, by
    return odd


def state_of(shape: Shape, p: SPOT) -> int:
    """Whether a place lies in a shape, or near its border."""
    corners, slack = shape.corners, TOLERANCE / 1000
    ends = corners + corners[:1] if shape.is_filled else corners + corners[:1] * (len(corners) == 1)
    off = min(apart(p, a, b) for a, b in zip(ends, ends[1:]))
    if shape.is_filled:
        return NEAR if off <= slack else COPPER if has(corners, p) else BARE
    return NEAR if abs(off - shape.radius) <= slack else COPPER if off < shape.radius else BARE


class Cells:
    """Shapes by squares of a millimetre that their boxes meet, the last drawn first."""

    def __init__(self, shapes: List[Shape]):
        self.cells = {}
        for shape in reversed(shapes):
            xs, ys = zip(*shape.corners)
            room = shape.radius + TOLERANCE / 1000
            for i in range(math.floor(min(xs) - room), math.floor(max(xs) + room) + 1):
                for j in range(math.floor(min(ys) - room), math.floor(max(ys) + room) + 1):
                    self.cells.setdefault((i, j), []).append(shape)

    def state(self, p: SPOT) -> int:
        """The last shape that has a place says what lies there; one whose border is near says nothing."""
        for shape in self.cells.get((math.floor(p[0]), math.floor(p[1])), ()):
            found = state_of(shape, p)
            if found == NEAR:
                return NEAR
            if found == COPPER:
                return COPPER if shape.is_dark else BARE
        return BARE


def arc(numbers: List[float], top: float) -> List[SPOT]:
    """The corners of an SVG arc `M x y A rx ry turn large sweep x y`, of one radius."""
    x1, y1, radius, _, _, large, sweep, x2, y2 = numbers[:9]
    dx, dy = (x1 - x2) / 2, (y1 - y2) / 2
    half = math.hypot(dx, dy)
    if not half or not radius:
        return [(x1, top - y1)]
    off = math.sqrt(max(0.0, radius * radius - half * half)) / half * (-1 if large == sweep else 1)
    cx, cy = off * dy + (x1 + x2) / 2, -off * dx + (y1 + y2) / 2
    first, last = math.atan2(y1 - cy, x1 - cx), math.atan2(y2 - cy, x2 - cx)
    last += 2 * math.pi * ((sweep and last < first) - (not sweep and last > first))
    turns = [first + (last - first) * k / CHORDS for k in range(CHORDS + 1)]
    return [(cx + radius * math.cos(turn), top - cy - radius * math.sin(turn)) for turn in turns]


def shape_of(tag: str, at: dict, is_dark: bool, top: float) -> Optional[Shape]:
    """What an element draws; y goes down in SVG."""
    value = lambda name: float(at[name])
    pen = float(at.get("stroke-width", "0")) / 2
    if tag == "line":
        return Shape(is_dark, False, [(value("x1"), top - value("y1")), (value("x2"), top - value("y2"))], pen)
    if tag == "circle":
        return Shape(is_dark, False, [(value("cx"), top - value("cy"))], value("r"))
    if tag == "polygon":
        numbers = [float(it) for it in NUMBER.findall(at["points"])]
        corners = [(x, top - y) for x, y in zip(numbers[::2], numbers[1::2])]
        return Shape(is_dark, True, corners, 0.0) if len(corners) > 2 else None
    if tag == "rect":
        x, y, wide, high = value("x"), top - value("y"), value("width"), value("height")
        return Shape(is_dark, True, [(x, y), (x + wide, y), (x + wide, y - high), (x, y - high)], 0.0)
    numbers = [float(it) for it in NUMBER.findall(at["d"])]
    return Shape(is_dark, False, arc(numbers, top), pen) if "A" in at["d"] and len(numbers) > 8 else None


def shapes_of(text: str) -> Optional[List[Shape]]:
    """What an SVG of camv-rnd draws, in order; where it has masks, what they have is the drawing, and black clears."""
    box = re.search(r'viewBox="[-\d.]+ [-\d.]+ [-\d.]+ ([-\d.]+)"', text)
    if not box:
        return None
    top, found, has_masks, is_in = float(box[1]) - MARGIN, [], "<mask" in text, False
    for end, tag, rest in re.findall(r"<(/?)(mask|line|polygon|circle|path|rect)\b([^>]*)>", text):
        if tag == "mask":
            is_in = not end
        elif is_in or not has_masks:
            at = dict(re.findall(r'([a-z0-9-]+)="([^"]*)"', rest))
            shape = shape_of(tag, at, not (is_in and "#000000" in (at.get("stroke"), at.get("fill"))), top)
            found += [shape] if shape else []
    return found


def moved(data: bytes) -> Tuple[bytes, float]:
    """A copper file moved up and right by its text, where that can be done, and by how many millimetres."""
    form, unit = re.search(rb"%FSLAX\d(\d)", data), "inch" if re.search(rb"%MOIN\*%|G70\*", data) else "mm"
    if not form or b"G91" in data:
        return data, 0.0
    step = MOVED[unit] * 10 ** int(form[1])
    put_off = lambda told: told[1] + b"%d" % (int(told[2]) + step)
    word_of = lambda word: word if word.strip().startswith(b"G04") else re.sub(rb"([XY])([+-]?\d+)", put_off, word)
    parts, is_extended, head = [], False, True
    for part in re.split(rb"(%)", data):
        is_extended ^= part == b"%"
        if part == b"%" or is_extended:
            parts.append(part)
            continue
        words = [word_of(word) for word in part.split(b"*")]
        if head and any(word.strip() for word in words):
            # A first coordinate that is left out is 0 in the file.
            words[0], head = b"X%dY%dD02*\n" % (step, step) + words[0].lstrip(), False
        parts.append(b"*".join(words))
    return b"".join(parts), MOVED[unit] * MILLIMETRES[unit]


def moved_holes(data: bytes) -> Tuple[bytes, float]:
    """A drill file with points moved so."""
    unit = "inch" if re.search(rb"^(INCH|M72)", data, re.M) else "mm"
    if re.search(rb"^(?:G0\d)?[XY][-+]?\d+(?:[XY]|\s*$)", data, re.M):
        return data, 0.0
    put_off = lambda told: told[1] + b"%.6f" % (float(told[2]) + MOVED[unit])
    line = lambda told: re.sub(rb"([XY])([-+]?\d*\.\d*)", put_off, told[0])
    return re.sub(rb"^(?:G0\d)?[XY][^;\n]*", line, data, flags=re.M), MOVED[unit] * MILLIMETRES[unit]


class Camv:
    name, needs = "camv-rnd", "camv-rnd-core, camv-rnd-import and camv-rnd-export-vector"
    has_areas = False

    def __init__(self):
        self.version = version("camv-rnd", "camv-rnd-core")

    @property
    def is_there(self) -> bool:
        return bool(self.version)

    @property
    def tolerance(self) -> str:
        return f"{TOLERANCE} um"

    def states(self, data: bytes, kind: str, places: List[Tuple[int, int]]) -> Told:
        body, off = moved(data) if kind == "copper" else moved_holes(data)
        with tempfile.TemporaryDirectory() as folder:
            path = put(folder, "f.gbr" if kind == "copper" else "f.drl", body)
            out = os.path.join(folder, "f.svg")
            said = run(["camv-rnd", "-x", "svg", "--outfile", out, path], folder, SECONDS, UNREAD).strip()
            said = "; ".join(dict.fromkeys(row.strip() for row in said.split("\n") if row.strip()))
            if not os.path.exists(out) or UNREAD.decode() in said:
                return Told(None, said)
            with open(out, encoding="utf-8", errors="replace") as file:
                shapes = shapes_of(file.read())
        if not shapes:
            return Told(None, said or "nothing drawn")
        cells = Cells(shapes)
        return Told([cells.state((x / 1000 + off, y / 1000 + off)) for x, y in places], said)

    def again(self, data: bytes, kind: str, places: List[Tuple[int, int]]) -> States:
        return self.states(data, kind, places).states
