"""Where a prober should aim at a pad: its middle, or where that has too little copper about it, a place well within the
pad."""
from boardnet_show.geometry.distances import from_line

LATTICE = 16  # steps across a piece in which a place is looked for
ENOUGH = 1_000_000  # u of copper about a place, or a quarter of the pad's lesser side


def room(touching, piece, place):
    """How far a place is from the border of a piece, less than 0 where it is outside."""
    if not touching.holds(piece, place):
        return -1
    if touching.shapes.is_area(piece):
        return min(from_line(place, a, b) for a, b in touching.lines(piece))
    return touching.shapes.radius[piece] - from_line(place, *touching.lines(piece)[0])


def deepest(touching, pieces):
    """Of a lattice over each piece the place with most room in its piece, or None."""
    best = None
    for piece in pieces:
        left, low, right, high = touching.box(piece)
        for i in range(1, LATTICE):
            for j in range(1, LATTICE):
                place = left + (right - left) * i // LATTICE, low + (high - low) * j // LATTICE
                found = room(touching, piece, place), -i, -j, place
                best = found if found[0] >= 0 and (best is None or found > best) else best
    return best and best[-1]


def aim(touching, pieces, middle, size):
    """The middle, or a place well within the pieces."""
    enough = min(ENOUGH, min(size) // 4)
    if any(room(touching, piece, middle) >= enough for piece in pieces):
        return middle
    return deepest(touching, pieces) or middle
