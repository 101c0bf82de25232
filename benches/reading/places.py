"""Places in a file, at random and a few micrometres off the borders of its pieces. All in whole numbers."""
import random
import re
from decimal import Decimal
from math import isqrt
from typing import List, NamedTuple, Tuple

from . import FARTHEST

Spot = Tuple[int, int]
# A micrometre in u.
U = 10_000
MILLIMETRE, INCH = 1_000 * U, 25_400 * U
# Micrometres from a border, to both sides; of places at random how far past the outermost piece.
STEPS, MARGIN = (2, 3, 5, 15, 30, 60), 1_000
# Corners of an area that may be a pad.
FEW = 8
# Lengths of short vectors are taken in these parts.
AREA, FINE = -1, 1_000
PART = re.compile(rb"%ADD(\d+)C,([\d.]+)\*%|X(-?\d+)Y(-?\d+)D0([12])\*|(G36|G37)\*|D(\d+)\*")
DEFINED, CHOSEN = re.compile(r"T0*(\d+)[^\n;]*?C([\d.]+)"), re.compile(r"T0*(\d+)\s*$")


class Piece(NamedTuple):
    """A capsule of one or two ends, or an area with the radius AREA; in u."""

    radius: int
    corners: List[Spot]

    @property
    def edges(self) -> List[Tuple[Spot, Spot]]:
        return list(zip(self.corners, self.corners[1:] + self.corners[:1]))

    @property
    def length(self) -> int:
        """About how long its border is."""
        ends = sum(distance(a, b) for a, b in self.edges)
        return ends if self.radius == AREA else ends + 6 * self.radius + 1


def distance(a: Spot, b: Spot) -> int:
    return isqrt((a[0] - b[0]) ** 2 + (a[1] - b[1]) ** 2)


def pieces_of(flat: bytes) -> List[Piece]:
    """The pieces of a copper file in its normal form."""
    sizes, found, radius, corners, is_area = {}, [], 0, [], False
    for told in PART.finditer(flat):
        if told[1]:
            sizes[told[1]] = int(Decimal(told[2].decode()) * MILLIMETRE) // 2
        elif told[6]:
            is_area = told[6] == b"G36"
            found += [] if is_area else [Piece(AREA, corners[:-1])]
            corners = []
        elif told[7]:
            radius = sizes[told[7]]
        else:
            corners = (corners if is_area or told[5] == b"1" else []) + [(int(told[3]), int(told[4]))]
            found += [Piece(radius, corners)] if not is_area and told[5] == b"1" else []
    return found


def whole(text: str, unit: int) -> int:
    return int(Decimal(text) * unit)


def holes_of(data: bytes) -> List[Piece]:
    """Roughly the holes, slots and routs of a drill file whose numbers have points. Modes are not followed."""
    text = data.decode("latin-1")
    unit = INCH if re.search(r"^(INCH|M72)", text, re.M) else MILLIMETRE
    sizes, radius, at, found = {}, MILLIMETRE // 2, (0, 0), []
    for line in (row.strip() for row in text.split("\n")):
        defined, chosen = DEFINED.match(line), CHOSEN.match(line)
        if defined:
            sizes[int(defined[1])] = whole(defined[2], unit) // 2
        elif chosen:
            radius = sizes.get(int(chosen[1]), radius)
        elif re.match(r"(?:G0[01])?[XY]", line):
            ends = []
            for part in line.split("G85"):
                spots = [re.search(rf"{axis}([-+]?\d*\.\d*)", part) for axis in "XY"]
                at = tuple(whole(spot[1], unit) if spot else before for spot, before in zip(spots, at))
                ends.append(at)
            found.append(Piece(radius, ends))
    return found


def micrometres(x: int, y: int) -> Spot:
    return (x + U // 2) // U, (y + U // 2) // U


def beside(rng: random.Random, piece: Piece) -> Spot:
    """A place near the border of a piece."""
    step = rng.choice(STEPS) * rng.choice((-1, 1)) * U
    a, b = rng.choice(piece.edges) if piece.radius == AREA else (piece.corners[0], piece.corners[-1])
    far, length = step if piece.radius == AREA else piece.radius + step, distance(a, b)
    if length and (piece.radius == AREA or rng.random() < 0.5):
        far, along = far * rng.choice((-1, 1)), rng.choice((0, rng.randrange(1001)))
        dx, dy = b[0] - a[0], b[1] - a[1]
        x, y = a[0] + along * dx // 1000, a[1] + along * dy // 1000
        return micrometres(x - dy * far // length, y + dx * far // length)
    x, y = rng.randint(-999, 999), rng.randint(1, 999) * rng.choice((-1, 1))
    end, other = rng.choice(((a, b), (b, a)))
    if x * (end[0] - other[0]) + y * (end[1] - other[1]) < 0:
        x, y = -x, -y  # off the end, and not along the piece
    length = isqrt((x * x + y * y) * FINE * FINE)
    return micrometres(end[0] + x * far * FINE // length, end[1] + y * far * FINE // length)


def in_corner(rng: random.Random, piece: Piece) -> Spot:
    """A place within a corner of an area, off both of its edges; outside where it turns inwards."""
    k = rng.randrange(len(piece.corners))
    (px, py), (x, y), (nx, ny) = piece.corners[k - 1], piece.corners[k], piece.corners[(k + 1) % len(piece.corners)]
    one, two = distance((px, py), (x, y)) or 1, distance((x, y), (nx, ny)) or 1
    far = rng.choice(STEPS) * U // 2 * (1 if is_anticlockwise(piece.corners) else -1)
    across = (py - y) * far // one + (y - ny) * far // two
    up = (x - px) * far // one + (nx - x) * far // two
    return micrometres(x + across, y + up)


def is_anticlockwise(corners: List[Spot]) -> bool:
    return sum(a[0] * b[1] - b[0] * a[1] for a, b in zip(corners, corners[1:] + corners[:1])) > 0


def near(rng: random.Random, pieces: List[Piece], count: int) -> List[Spot]:
    """Places near borders: of pieces one by one, of all length alike, and within corners of figures, which are few."""
    if not pieces:
        return []
    figures = [piece for piece in pieces if piece.radius == AREA and len(piece.corners) <= FEW]
    found = [in_corner(rng, piece) for piece in rng.sample(figures, min(len(figures), count // 4))]
    lengths, rest = [piece.length + 1 for piece in pieces], count - len(found)
    chosen = rng.choices(pieces, k=rest - rest // 2) + rng.choices(pieces, lengths, k=rest // 2)
    return told(found + [beside(rng, piece) for piece in chosen])


def box_of(pieces: List[Piece]) -> Tuple[int, int, int, int]:
    """Left, low, right and high of pieces, in micrometres."""
    room = max((piece.radius for piece in pieces), default=0)
    xs, ys = ([corner[axis] for piece in pieces for corner in piece.corners] or [0] for axis in (0, 1))
    return (*micrometres(min(xs) - room, min(ys) - room), *micrometres(max(xs) + room, max(ys) + room))


def anywhere(rng: random.Random, pieces: List[Piece], count: int) -> List[Spot]:
    """Places at random in the box of pieces and a little past it."""
    left, low, right, high = box_of(pieces)
    some = lambda least, most: rng.randint(least - MARGIN, most + MARGIN)
    return told([(some(left, right), some(low, high)) for _ in range(count)])


def told(places: List[Spot]) -> List[Spot]:
    """Those that a test record can say."""
    return [place for place in places if max(map(abs, place)) <= FARTHEST]
