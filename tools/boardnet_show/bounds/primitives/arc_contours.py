"""A contour with arcs, and contours of whole corners that lie in it or hold it."""
from typing import Any, List, Optional, Sequence

from boardnet_show.geometry.arcs import Arc
from boardnet_show.geometry.pieces import Corners, Spot
from boardnet_show.geometry.segments import Bands, Segments, edges, place_beside, segments_within


def contour_bound(parts: Sequence[Any], upper: bool) -> Optional[List[Spot]]:
    """parts: spots (the next corner of a straight edge) and Arcs, in order, closed. Corners of an area within the real
    one, or round it, or None. Between a chain and its arc lies a sliver; what the two areas do not share lies in
    slivers. Where no other edge enters a sliver and one place of it is outside the new area, or for UPPER in it, all of
    it is."""
    arcs = [p for p in parts if isinstance(p, Arc)]
    if not all(arc.sound for arc in arcs):
        return None
    corners, spans = assembled(parts, set())
    bands = Bands(corners)
    flipped = {k for k, arc in enumerate(arcs) if bands.odd(*place_beside(arc.inner, True)) != upper}
    corners, spans = assembled(parts, flipped)
    segments, bands = edges(corners), Bands(corners)
    grid = Segments(segments)
    for k, arc in enumerate(arcs):
        chain = arc.outer if k in flipped else arc.inner
        if not (arc.lies_outside() if k in flipped else arc.lies_inside()):
            return None
        if (
            meets_sliver(arc, chain, spans[k], segments, grid)
            or bands.odd(*place_beside(chain, k not in flipped)) != upper
        ):
            return None
    return corners


def meets_sliver(arc: Arc, chain: Corners, span: Any, segments: Sequence[Any], grid: Segments) -> bool:
    """Does an edge that is not of the chain come into a sliver? Edges from an end of the arc are tried by direction."""
    most, (first, count), n = arc.leaves(chain), span, len(segments)
    own = {(first + i) % n for i in range(count)}
    for i in range(count):
        a, b = segments[(first + i) % n]
        for other in grid.near(a, b, most + 1) - own:
            ends = segments[other]
            cones = [
                (apex, at_first)
                for apex, at_first, here in ((a, True, i == 0), (b, False, i == count - 1))
                if here and apex in ends
            ]
            if cones:
                if any(
                    enters(arc, chain, ends[1] if ends[0] == apex else ends[0], at_first) for apex, at_first in cones
                ):
                    return True
            elif segments_within(a, b, *ends, most):
                return True
    return False


def enters(arc: Arc, chain: Corners, far: Spot, at_first: bool) -> bool:
    """Does the neighbour's edge, from the shared end to far, go into the cone that holds the first sliver? Inside the
    disc that is the one between chord and tangent, outside the one between the chain and a chord as long as two
    tangents."""
    at_start = at_first == arc.ccw
    o, p = (chain[0], chain[1]) if at_start else (chain[-1], chain[-2])
    u, v, g = (p[0] - o[0], p[1] - o[1]), arc.tangent(at_start), (far[0] - o[0], far[1] - o[1])
    if chain is arc.outer:
        q = arc.chain[1] if at_start else arc.chain[-2]
        v = (q[0] - o[0], q[1] - o[1])
    det = lambda s, t: s[0] * t[1] - s[1] * t[0]
    if det(u, v) < 0:
        u, v = v, u
    return det(u, g) > 0 and det(g, v) > 0


def assembled(parts, flipped):
    """Corners, and for each arc its first edge and how many edges. Edge e goes from corner e to the next."""
    corners, spans, k = [], [], 0
    for part in parts:
        if not isinstance(part, Arc):
            corners.append(part)
            continue
        chain = part.outer if k in flipped else part.inner
        chain = chain if part.ccw else chain[::-1]
        spans.append((len(corners) - 1, len(chain) - 1))
        corners += chain[1:]
        k += 1
    if len(corners) > 1 and corners[0] == corners[-1]:
        corners.pop()
    return corners, spans
