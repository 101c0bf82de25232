"""Copper without width: contours that enclose nothing, or run along a line twice with no copper on its sides. It
joins what it touches, by our own rule; here is only told where it is, with straight contours of some thousand edges."""
from collections import Counter

from boardnet_show.base.wording import millimetres
from boardnet_show.formats.gerber_lexer import Run, line_numbers
from boardnet_show.formats.gerber_machine import MOVE, STRAIGHT, Machine, Spot
from boardnet_show.geometry.exact import Refused
from boardnet_show.geometry.segments import Bands, dot, edges, place_beside, point_within

MOST_CORNERS = 10_000  # of a contour that is looked at
FEW_EDGES = 200  # of one whose edges are parted where corners lie on them


class Contours(Machine):
    """Goes through the words of a copper file; `found` are the straight contours of its regions, with the numbers of
    the words that close them. What is drawn along arcs has a None among its corners."""

    RUNS = True

    def __init__(self, data: bytes) -> None:
        super().__init__()
        self.found, self.corners = [], []
        self.scale = self.decimals = None
        self.read(data)

    def format_word(self, text: str) -> None:
        if text[-1:].isdigit():
            self.decimals = 10 ** int(text[-1])

    def unit_word(self, scale: int, text: str) -> None:
        self.scale = scale

    def region_begins(self) -> None:
        super().region_begins()
        self.close()

    def region_ends(self) -> None:
        super().region_ends()
        self.close()

    def run(self, run: Run) -> None:
        for self.number, (x, y, code) in enumerate(zip(run.xs, run.ys, run.codes), self.number):
            start, self.spot = self.spot, (x, y)
            (self.contour if code == MOVE else self.edge)(start)

    def contour(self, start: Spot) -> None:
        self.close()

    def edge(self, start: Spot) -> None:
        self.corners += [] if self.corners else [start]
        self.corners += [self.spot] if self.mode is STRAIGHT else [self.spot, None]

    def close(self) -> None:
        if self.corners and None not in self.corners and len(self.corners) <= MOST_CORNERS:
            self.found.append((self.number, self.corners))
        self.corners = []

    def spot_in_u(self, spot: Spot) -> Spot:
        """In u."""
        return tuple(round(v * self.scale / self.decimals) for v in spot)


def parted(corners):
    """The edges of a contour, of one with few parted where corners lie on them."""
    found, spots = [(a, b) for a, b in edges(corners) if a != b], set(corners)
    if len(found) > FEW_EDGES:
        return found
    return [
        edge
        for a, b in found
        for its in [sorted((p for p in spots if point_within(p, a, b, 0)), key=lambda p: dot(a, p, p))]
        for edge in zip(its, its[1:])
    ]


def hair(corners):
    """The middle of an edge that a contour runs along an even number of times with no copper on its sides, or None."""
    often = Counter((min(edge), max(edge)) for edge in parted(corners))
    doubled = [edge for edge, times in often.items() if times % 2 == 0]
    bands = Bands(corners) if doubled else None
    for a, b in doubled:
        if not any(bands.odd(*place_beside([a, b], is_left)) for is_left in (False, True)):
            return (a[0] + b[0]) / 2, (a[1] + b[1]) / 2
    return None


def told_of(data: bytes) -> str:
    """What is told of copper without width in a copper file's bytes, or nothing."""
    walk = Contours(data)
    return widthless(walk, data) if walk.scale and walk.decimals else ""


def place_of(data, found):
    """Where the first of some contours is told, by the number of the word that closes it and a spot in u, and how
    many more there are."""
    number, spot = found[0]
    more = f", and of {len(found) - 1} more contours" if len(found) > 1 else ""
    return (
        f"{', '.join(map(millimetres, spot))} mm, command {number}, line {line_numbers(data, [number])[number]}{more}"
    )


def widthless(walk, data):
    found = [
        (number, walk.spot_in_u(spot))
        for number, spot in ((number, hair(corners)) for number, corners in walk.found if len(corners) > 2)
        if spot
    ]
    if not found:
        return ""
    return (
        f"copper without width at {place_of(data, found)}: "
        "the contour runs along itself with no copper on its sides, and joins what it touches there"
    )


def wound(walk, data):
    if not walk.found:
        return ""
    from .wound_contours import wound_twice  # few boards have regions, and loading takes longer than a small board

    found = [(number, it) for number, it in ((number, wound_twice(corners)) for number, corners in walk.found) if it]
    if not found:
        return ""
    # The place is beside a border: whole micrometres are near enough.
    spots = [(number, tuple(round(v, -4) for v in walk.spot_in_u(it.place))) for number, it in found]
    return (
        f"readers differ on it: a contour goes {found[0][1].times} times round what lies at {place_of(data, spots)}: "
        "there is no copper here, by even and odd, and some where turns are counted"
    )


def may_have(data):
    """Whether a file may have a contour that is looked at; no region has one with a single move and more draws."""
    at = data.find(b"G36")
    while at >= 0:
        end = data.find(b"G37", at)
        moves = data.count(b"D02*", at, end) + data.count(b"D2*", at, end)
        if end < 0 or moves != 1 or data.count(b"D01*", at, end) <= MOST_CORNERS:
            return True
        at = data.find(b"G36", end)
    return False


def notes(package):
    """Notes on each copper file that has such contours; what cannot be read says nothing here."""
    for name in dict.fromkeys(package.manifest.copper):
        try:
            data = package.read(name)
            walk = Contours(data) if may_have(data) else None
        except (OSError, Refused, ValueError):
            continue
        if walk and walk.scale and walk.decimals:
            yield from (f"{name}: {told}" for told in (widthless(walk, data), wound(walk, data)) if told)
