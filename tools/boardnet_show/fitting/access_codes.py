"""Access codes of a netlist's records that cannot be meant as they stand, and the layers that may be meant."""
from typing import Callable, Dict, Iterator, List, Optional, Set, Tuple

from boardnet_show.formats import ipc356
from boardnet_show.formats.ipc356 import Place
from boardnet_show.intake.package import Package

from .changes import CodesRead
from .layer_order import is_near, near_cells
from .placement import holes

# The layer that is meant by a record, or None where its code stands.
LayerOf = Callable[[Place], Optional[int]]


class Spans:
    """The layers that holes reach at a place."""

    def __init__(self, package: Package) -> None:
        self.holes: List[Tuple[int, int, Set[Tuple[int, int]]]] = [
            (first, last, near_cells(holes(package, name))) for name, first, last in package.manifest.drills
        ]

    def at(self, x: int, y: int) -> List[int]:
        reached = (range(first, last + 1) for first, last, cells in self.holes if is_near(cells, x, y))
        return sorted({layer for layers in reached for layer in layers})


def via_layers(package: Package, unit: int) -> Optional[LayerOf]:
    """For a through record the first layer of the holes at its place, where they do not reach those of its code."""
    spans, last = Spans(package), package.manifest.layers

    def layer(place: Place) -> Optional[int]:
        found = spans.at(place.x * unit, place.y * unit) if place.is_through else []
        wanted = {place.access} if place.access else {1, last}
        return found[0] if found and not wanted <= set(found) else None

    return layer


def bottom_layers(package: Package, _: int) -> Optional[LayerOf]:
    """For a surface record of layer 2 the last layer: pads of parts are on no inner layer."""
    last: int = package.manifest.layers
    return (lambda place: last if not place.is_through and place.access == 2 else None) if last > 2 else None


Rule = Callable[[Package, int], Optional[LayerOf]]
HOLES, BOTTOM = "holes", "bottom"
RULES: Tuple[Tuple[str, Rule], ...] = ((HOLES, via_layers), (BOTTOM, bottom_layers))


def changed_codes(data: bytes, layer_of: LayerOf) -> Tuple[bytes, int]:
    """The netlist with the layers that are meant in place of codes, and how many."""
    count = 0

    def change(line: bytes) -> bytes:
        nonlocal count
        layer = layer_of(ipc356.place_of(line))
        count += layer is not None
        return line if layer is None else ipc356.with_access(line, layer)

    return ipc356.changed(data, change), count


def recoded(package: Package, name_of_rule: str, rule: Rule) -> Iterator[Tuple[CodesRead, Dict[str, bytes]]]:
    """(change, changed files) for the records whose code a rule reads otherwise, or nothing."""
    name = package.manifest.netlist
    data = package.read(name)
    unit = ipc356.unit_of(data)
    layer_of = rule(package, unit) if unit else None
    try:
        out, changed = changed_codes(data, layer_of) if layer_of else (data, 0)
    except ValueError:
        return
    if changed:
        yield CodesRead(name_of_rule, changed, package.manifest.layers), {name: out}
