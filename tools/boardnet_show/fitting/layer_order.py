"""Which copper file is the top and which the bottom, by surface points that lie on centres of pads of one file."""
from boardnet_show.formats import ipc356
from boardnet_show.intake import own_declarations

from .changes import POINTS, SAID, LayersOrdered
from .placement import flashes

NEAR = 50_000  # 5 micrometres: two roundings of a netlist's place


def near_cells(spots):
    return {(x // NEAR, y // NEAR) for x, y in spots}


def is_near(cells, x, y):
    return any((x // NEAR + i, y // NEAR + j) in cells for i in (-1, 0, 1) for j in (-1, 0, 1))


def scores(package, surface, unit):
    """For the first and the last layer, how many of its surface points have a pad of each file."""
    layers = package.manifest.layers
    cells = [near_cells(flashes(package, k)) for k in range(layers)]
    return [
        [sum(is_near(cells[k], r.x * unit, r.y * unit) for r in surface if r.access == access) for k in range(layers)]
        for access in (1, layers)
    ]


def reordered(manifest, order):
    """The manifest with its copper files in another order."""
    return manifest.changed(copper=[manifest.copper[k] for k in order])


def layerings(package):
    """(change, manifest) with the outer files where the surface points are, or none where that is as it is. Inner
    files keep their order."""
    data, layers = package.read(package.manifest.netlist), package.manifest.layers
    unit = ipc356.unit_of(data)
    surface = [r for r in ipc356.places(data) if not r.is_through]
    if layers < 2 or unit is None or not surface:
        return
    top, bottom = scores(package, surface, unit)
    best = max(
        (top[a] + bottom[b], a == 0, b == layers - 1, a, b) for a in range(layers) for b in range(layers) if a != b
    )
    total, *_, first, last = best
    if total <= top[0] + bottom[-1]:
        return
    order = [first] + [k for k in range(layers) if k not in (first, last)] + [last]
    told = reordered(package.manifest, order)
    yield LayersOrdered(tuple(told.copper), POINTS, layers > 3), told


def as_labelled(package):
    """(change, manifest) with the files in the order of the layers that they say they are, where that is an order."""
    numbers = own_declarations.layers(package)
    if sorted(numbers) != list(range(1, package.manifest.layers + 1)):
        return
    told = reordered(package.manifest, [numbers.index(k) for k in range(1, len(numbers) + 1)])
    yield LayersOrdered(tuple(told.copper), SAID), told
