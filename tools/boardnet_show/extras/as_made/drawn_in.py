"""Copper with every shape drawn in by half a width, so that what is left joins only where a disc of that width goes
through.

LOWER draws in each piece by itself: a draw and a flash by their radius, an area by what lies near its edges, but for
edges at which areas abut. What a disc of the width can run through has all of that and maybe more. UPPER draws in what
the pieces of a net make together on a layer.
"""
from collections import defaultdict
from typing import Dict, Iterable, Iterator, List, Sequence, Set, Tuple

from boardnet_show.bounds.polarity import dark_and_clear
from boardnet_show.bounds.polarity.dark_and_clear import Object
from boardnet_show.geometry.exact import Refused
from boardnet_show.geometry.pieces import Area, Capsule, Piece
from boardnet_show.geometry.segments import Bands, place_beside
from boardnet_show.geometry.shapes import Shapes

from .rims import Edge, Spot, bordering, key, own_edges, round_edges

# Edges of a layer's areas that are drawn in: a sweep of more takes minutes.
MOST_EDGES = 60_000


def abutting(areas: Dict[int, List[Spot]]) -> Tuple[List[List[int]], Set[Edge]]:
    """Areas in groups of those that have whole edges in common, and those of these edges that have copper on both
    sides: two areas may lie on the same one."""
    owners: Dict[Edge, List[int]] = defaultdict(list)
    group = {number: [number] for number in areas}
    for number, corners in areas.items():
        for edge in {key(line) for line in bordering(corners, ()) if line}:
            owners[edge].append(number)
    common = {edge: its for edge, its in owners.items() if len(its) > 1}
    for first, *others in common.values():
        for other in others:
            one, two = group[first], group[other]
            if one is not two:
                one += two
                group.update(dict.fromkeys(two, one))
    insides = {number: Bands(areas[number]) for its in common.values() for number in its}
    shared = {edge for edge, its in common.items() if is_covered(edge, [insides[number] for number in its])}
    return list({id(its): its for its in group.values()}.values()), shared


def is_covered(edge: Edge, insides: Sequence[Bands]) -> bool:
    """Whether some areas lie on both sides of an edge."""
    return all(any(its.odd(*place_beside(list(edge), side)) for its in insides) for side in (False, True))


def rims(lines: Iterable[Edge], half: int) -> List[Piece]:
    """What lies within half a width of edges."""
    return [Capsule(a, b, half) for a, b in lines]


def lower_areas(shapes: Shapes, pieces: Sequence[int], half: int) -> Iterator[Piece]:
    """What is left for certain of a layer's areas."""
    areas = {piece: shapes.places(piece) for piece in pieces}
    if sum(map(len, areas.values())) > MOST_EDGES:
        raise Refused(f"a layer's areas have over {MOST_EDGES} edges")
    groups, shared = abutting(areas)
    for its in groups:
        borders = [bordering(areas[piece], shared) for piece in its]
        near = rims([edge for lines in borders for edge in lines if edge], half)
        around = [corners for lines in borders for corners in round_edges(lines, half)]
        dark = [Area(areas[piece]) for piece in its]
        objects = [Object(True, (dark, dark), 0), Object(False, (near, near), 0, ([], around))]
        yield from (piece for piece, _ in dark_and_clear.cut(objects, sides=(0,))[1])


def lower_layer(shapes: Shapes, pieces: Sequence[int], half: int) -> Iterator[Piece]:
    """What is left for certain of a layer's pieces."""
    for piece in pieces:
        if not shapes.is_area(piece) and shapes.radius[piece] > half:
            a, b, radius = shapes.capsule(piece)
            yield Capsule(a, b, radius - half)
    yield from lower_areas(shapes, [piece for piece in pieces if shapes.is_area(piece)], half)


def upper_layer(shapes: Shapes, pieces: Sequence[int], half: int) -> Iterator[Piece]:
    """All that may be left of what some pieces of a layer make together."""
    darks = [Object(True, ([shapes.solid(piece)],) * 2, 0) for piece in pieces]
    together = dark_and_clear.cut(darks, {0}, (1,))[2]
    lines = [edge for area, _ in together for edge in own_edges(area.corners)]
    if len(lines) > MOST_EDGES:
        raise Refused(f"a net's copper on a layer has over {MOST_EDGES} edges")
    dark = [piece for piece, _ in together]
    objects = [Object(True, (dark, dark), 0), Object(False, (rims(lines, half),) * 2, 0)]
    yield from (piece for piece, _ in dark_and_clear.cut(objects, sides=(1,))[2])


def by_layers(layer_of: Sequence[int], pieces: Iterable[int]) -> Dict[int, List[int]]:
    """Pieces by their layers; those of no layer are none."""
    found: Dict[int, List[int]] = defaultdict(list)
    for piece in pieces:
        if layer_of[piece]:
            found[layer_of[piece]].append(piece)
    return found
