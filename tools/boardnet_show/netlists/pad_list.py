"""Where a tester may touch a board: each pad of an outer layer, and each plated hole, with what the files say of it.

A pad is what one flash makes, whatever its shape, or a region that the file gives to a pin (`TO.P`); of a flash whose
copper is on two nets there is one for each. A pad whose middle lies in a plated hole of its layer is told with the
hole.
"""
from collections import defaultdict
from typing import Any, Dict, Iterable, List, Mapping, Optional, Sequence, Set, Tuple

from boardnet_show.base.statuses import BadCopper
from boardnet_show.formats import ipc356
from boardnet_show.findings.board import Board
from boardnet_show.formats.gerber_lexer import begins
from boardnet_show.formats.gerber_objects import Object, objects_of
from boardnet_show.geometry import box_grid
from boardnet_show.geometry.box_tree import cover
from boardnet_show.intake.package import Package

from .block_flashes import objects_of_blocks
from .probe_places import aim

# Functions of apertures whose flashes are no pads.
NO_PADS = {
    "Conductor",
    "EtchedComponent",
    "NonConductor",
    "CopperBalancing",
    "Border",
    "OtherCopper",
    "ThermalReliefPad",
    "AntiPad",
}
VIA = "VIA"
Spot = Tuple[int, int]
Objects = List[Optional[Object]]


class Place:
    """A pad or a hole: its pieces, net and layers (first and last), its middle and size in u, and `hole`, the piece of
    a hole. `aim` is where it is best touched."""

    def __init__(
        self,
        pieces: List[int],
        net: int,
        layers: Tuple[int, int],
        middle: Spot,
        size: Tuple[int, int],
        hole: Optional[int] = None,
    ) -> None:
        self.pieces, self.net, self.layers, self.middle, self.size, self.hole = pieces, net, layers, middle, size, hole
        self.aim = middle
        self.part = self.pin = ""
        self.masks: Set[str] = set()  # the mask codes of the netlist's records on it
        self.is_via = self.is_round = False

    def name(self, part: str, pin: str, is_via: bool) -> None:
        """Takes part and pin, where there are none yet."""
        if not self.part and part:
            self.part, self.pin = part, pin
        self.is_via = self.is_via or is_via

    def take(self, pad: "Place", is_in_front: bool) -> None:
        """Takes what is said of a pad about a hole, and the size of the largest one where the hole is touched."""
        self.name(pad.part, pad.pin, pad.is_via)
        if is_in_front and pad.size[0] * pad.size[1] >= self.size[0] * self.size[1]:
            self.size, self.is_round = pad.size, pad.is_round

    def is_of_other(self, pad: "Place") -> bool:
        """Whether a pad is another pin's."""
        return bool(self.part and pad.part) and (self.part, self.pin) != (pad.part, pad.pin)


def repeated(objects: Iterable[Object]) -> List[Object]:
    """The object of each piece, in order."""
    return [it for it in objects for _ in range(it.pieces)]


def of_file(package: Package, name: str) -> List[Object]:
    """The objects of a file's pieces in order, read from the file as it was before it was flattened."""
    return repeated(objects_of(package.before.get(name) or package.read(name)))


def by_command(package: Package, name: str) -> Dict[Tuple[int, int], Object]:
    """The object of each command and copy of a file that the package has."""
    its = of_file(package, name)
    if name in package.flattened:
        return {(it.command, 0): its[k] for k, it in enumerate(repeated(objects_of(package.read(name))))}
    return {(it.command, it.copy): it for it in its}


def between(board: Board, package: Package, name: str, pieces: Sequence[int]) -> Objects:
    """The objects of the pieces of a file that was written between bounds."""
    objects, data, sources = by_command(package, name), package.read(name), board.report.sources
    inner: Mapping[int, Object] = {}
    if begins(data, b"AB"):
        inner = objects_of_blocks(data.decode("latin-1"), board.shapes, sources, pieces)
    made = ((piece, *sources[piece][1:3]) for piece in pieces)
    return [
        inner.get(piece) or objects.get((command, copy)) or objects.get((command, 0)) for piece, command, copy in made
    ]


def origins(board: Board, base: Optional[Package]) -> Objects:
    """The object of each piece of copper. Between bounds `base` is the package of the user's files, and the board has
    their commands."""
    package, sources = base or board.package, board.report.sources
    found: Objects = []
    by_file: Dict[int, List[int]] = defaultdict(list)
    for piece, (file, *_) in enumerate(sources):
        by_file[file].append(piece)
    for file, name in enumerate(package.manifest.copper):
        pieces = by_file[file]
        if base and base.sides and name in base.sides.sources[0]:
            found += between(board, package, name, pieces)
        else:
            its = of_file(package, name)
            if len(its) != len(pieces):
                raise BadCopper(f"{name}: its commands make {len(its)} shapes here, and {len(pieces)} in the report")
            found += its
    return found


def is_pad(made: Optional[Object]) -> bool:
    if made is None:
        return False
    return made.kind == "flash" and made.function not in NO_PADS or made.kind == "contour" and bool(made.part)


def middle_of(box: Sequence[int]) -> Spot:
    return (box[0] + box[2]) // 2, (box[1] + box[3]) // 2


class Padlist:
    """The pads and holes of a board, and its pieces' objects."""

    def __init__(self, board: Board, objects: Objects) -> None:
        self.board, self.objects = board, objects
        self.layers: int = board.manifest.layers
        self.forms: Dict[Any, Tuple[Spot, Tuple[int, int], Spot]] = {}
        self.holes, self.pads = self.all_holes(), self.all_pads()
        self.places = self.joined()
        self.name_by_records()

    def all_holes(self) -> List[Place]:
        shapes = self.board.shapes
        found: List[Place] = []
        for piece in range(len(self.objects), self.board.report.pieces):
            top, bottom = self.board.report.sources[piece][3:]
            (x1, y1), (x2, y2) = shapes.places(piece)[0], shapes.places(piece)[-1]
            left, low, right, high = shapes.box(piece)
            hole = Place(
                [piece],
                self.board.report.net_of[piece],
                (top, bottom),
                ((x1 + x2) // 2, (y1 + y2) // 2),
                (right - left, high - low),
                piece,
            )
            hole.is_round = (x1, y1) == (x2, y2)
            found.append(hole)
        return found

    def all_pads(self) -> List[Place]:
        groups: Dict[Any, List[int]] = defaultdict(list)
        outer, report = (0, self.layers - 1), self.board.report
        for piece, (it, (file, _, copy, *_), net) in enumerate(zip(self.objects, report.sources, report.net_of)):
            if it is not None and file in outer and is_pad(it):
                region = "region", it.region, it.copy, it.inner and it.command, it.inner
                what = region if it.region else ("flash", it.command, copy or it.copy, it.inner)
                groups[file, what, net].append(piece)
        return [self.pad(file + 1, net, pieces) for (file, _, net), pieces in groups.items()]

    def pad(self, layer: int, net: int, pieces: List[int]) -> Place:
        shapes, it = self.board.shapes, self.objects[pieces[0]]
        assert it is not None  # a pad is of an object
        x, y = shapes.first(pieces[0])
        is_round = len(pieces) == 1 and shapes.is_spot(pieces[0])
        form = shapes.radius[pieces[0]] if is_round else tuple([shapes.form(piece, x, y) for piece in pieces])
        if form not in self.forms:
            self.forms[form] = self.measured(pieces, x, y)
        (left, low), size, (across, up) = self.forms[form]
        found = Place(pieces, net, (layer, layer), (x + left, y + low), size)
        found.name(it.part, it.pin, it.function == "ViaPad")
        found.aim, found.is_round = (x + across, y + up), is_round
        return found

    def measured(self, pieces: List[int], x: int, y: int) -> Tuple[Spot, Tuple[int, int], Spot]:
        """The middle, size and aim of a pad, places beside (x, y): found once for each form of pads."""
        left, low, right, high = box = cover([self.board.touching.box(piece) for piece in pieces])
        middle, size = middle_of(box), (right - left, high - low)
        spot = aim(self.board.touching, pieces, middle, size)
        return (middle[0] - x, middle[1] - y), size, (spot[0] - x, spot[1] - y)

    def name_by_records(self) -> None:
        """Part and pin of places by the netlist's records that lie on them, the nearest to the middle first."""
        board, places = self.board, self.places
        masks = self.masks_of_records()
        told = [(point, board.record(point), board.spot(point)) for point in range(len(board.report.points))]
        told = [it for it in told if it[1] and (it[1].component or masks[it[1].line]) and it[2]]
        boxes = [cover([board.touching.box(piece) for piece in it.pieces]) for it in places] if told else []
        found: Dict[int, List[Any]] = defaultdict(list)
        for j, k in box_grid.holding(boxes, [spot for _, _, spot in told]):
            (point, record, spot), place = told[k], places[j]
            is_on_layer = place.layers[0] <= board.layer(point) <= place.layers[1]
            if is_on_layer and any(board.touching.holds(piece, spot) for piece in place.pieces):
                place.masks.update(masks[record.line])
                if not record.component:
                    continue
                away = (spot[0] - place.middle[0]) ** 2 + (spot[1] - place.middle[1]) ** 2
                found[j].append((place.hole is None and record.component == VIA, away, point, record))
        for j, its in found.items():
            *_, record = min(its)
            if record.component == VIA:
                places[j].name("", "", places[j].hole is not None)
            else:
                places[j].name(record.component, record.pin, False)

    def masks_of_records(self) -> Dict[int, str]:
        """The mask code that the netlist gives each record, by its line."""
        package = self.board.package
        data = package.read(package.manifest.netlist)
        return {record.line: mask for record, mask in zip(ipc356.records(data), ipc356.masks(data))}

    def joined(self) -> List[Place]:
        """The holes with the pads about them, and the other pads: also those of other pins over a hole that has one."""
        board = self.board
        about: Set[int] = set()
        boxes = [board.touching.box(it.hole) for it in self.holes]
        for j, k in box_grid.holding(boxes, [it.middle for it in self.pads]):
            hole, pad = self.holes[j], self.pads[k]
            layer = pad.layers[0]
            is_about = (
                hole.layers[0] <= layer <= hole.layers[1]
                and hole.net == pad.net
                and (
                    hole.middle == pad.middle
                    and board.shapes.is_spot(hole.hole)
                    or board.touching.holds(hole.hole, pad.middle)
                )
            )
            if is_about and not hole.is_of_other(pad):
                hole.take(pad, layer == front(hole, self.layers))
                about.add(k)
        return self.holes + [pad for k, pad in enumerate(self.pads) if k not in about]


def front(place: Place, layers: int) -> int:
    """The layer on which a place is touched: the last one of a blind hole from below, else the first."""
    first, last = place.layers
    return last if last == layers and first > 1 else first
