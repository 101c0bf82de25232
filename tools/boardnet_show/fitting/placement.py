"""Where a netlist may belong: its unit, mirror, turn and origin, by votes of places that lie on centres of pads and
holes.

A vote decides what is tried, and nothing else: what is told is what `check` says of the changed copy.
"""
import hashlib
import heapq
from collections import Counter
from fractions import Fraction as Q
from itertools import islice
from typing import Callable, List, Optional, Sequence, Tuple

from boardnet_show.formats import ipc356
from boardnet_show.formats.drills.drill_places import places
from boardnet_show.formats.units import UNIT_WORDS
from boardnet_show.intake.evidence import pad_middles

from .changes import NetlistPlaced

SAMPLE = 40  # records that vote
FEW, MANY = 8, 20_000  # centres
ENOUGH = Q(3, 4)  # of the votes: no other centres are asked
MOST_VOTED = 6  # cells of shifts that are looked at
WIDE = 1 << 45  # more than twice what a shift has in units
Form = Callable[[int, int], Tuple[int, int]]
FORMS = [
    ("", lambda x, y: (x, y)),
    ("mirrored left to right", lambda x, y: (-x, y)),
    ("mirrored upside down", lambda x, y: (x, -y)),
    ("turned by half", lambda x, y: (-x, -y)),
    ("turned by a quarter", lambda x, y: (-y, x)),
    ("turned by three quarters", lambda x, y: (y, -x)),
    ("mirrored and turned by a quarter", lambda x, y: (y, x)),
    ("mirrored and turned by three quarters", lambda x, y: (-y, -x)),
]


# ---- netlists


def text_of(package, name):
    return package.read(name).decode("latin-1")


def records(text: str) -> List[ipc356.Place]:
    """Where the test records of a netlist are, or none where one is broken."""
    return ipc356.places(text.encode("latin-1"))


def unit_of(text: str) -> Optional[int]:
    return ipc356.unit_of(text.encode("latin-1"))


class Outside(Exception):
    """A place that six digits do not hold."""


def moved(text: str, form: Form, by: Sequence[int]) -> Optional[str]:
    """The netlist with all places through a form and moved by whole units; None where six digits do not hold them."""

    def change(line: bytes) -> bytes:
        place = ipc356.place_of(line)
        x, y = (v + d for v, d in zip(form(place.x, place.y), by))
        if max(abs(x), abs(y)) > ipc356.MOST:
            raise Outside
        return ipc356.with_place(line, x, y)

    try:
        return ipc356.changed(text.encode("latin-1"), change).decode("latin-1")
    except Outside:
        return None


# ---- centres


def known(package, of, files, make=None):
    """What a function finds in files: once for all changed copies that have the same, too. `make` is it with more
    that follows from them."""
    key = of, *(hashlib.sha256(data).digest() for data in files)
    if key not in package.made:
        package.made[key] = make() if make else of(*files)
    return package.made[key]


def unflattened(package, name):
    """A copper file as it was before it was flattened."""
    return package.before.get(name) or package.read(name)


def flashes(package, index):
    """Centres of the flashes of a copper file, in u."""
    return known(package, pad_middles.of_file, [unflattened(package, package.manifest.copper[index])])


def places_of_holes(data):
    """The places of a drill file, each once."""
    return sorted(set(places(data)))


def holes(package, name):
    return known(package, places_of_holes, [package.read(name)])


def all_flashes(package):
    return set().union(*(flashes(package, index) for index in range(package.manifest.layers)))


def with_vote(package, without):
    """The drill files whose holes have a vote."""
    return [name for name, _, _ in package.manifest.drills if name not in without]


def voters(package, text, without):
    """Places of records with centres that they may lie on: through points and holes, else all points and all centres.
    The holes of some drill files have no vote."""
    told = records(text)
    drilled = sorted({spot for name in with_vote(package, without) for spot in holes(package, name)})
    through = sorted({(r.x, r.y) for r in told if r.is_through})
    enough = min(len(through), len(drilled)) >= FEW
    if enough:
        yield through, drilled
    pads = sorted(set(drilled) | all_flashes(package))
    if told and pads and not (enough and len(pads) > MANY):
        yield sorted({(r.x, r.y) for r in told}), pads


# ---- votes


def middle(counts):
    values = sorted(counts.elements())
    return values[len(values) // 2]


def vote(sample, centres, form, unit):
    """The shifts, in units, that bring most sampled places, in u, onto a centre: (votes, shift), the best two and those
    with as many votes."""
    turned = [form(x, y) for x, y in sample]
    votes = counted(turned, centres, unit)
    around = lambda c: sum(votes[coded(c[0] + i, c[1] + j)] for i in (0, 1) for j in (0, 1))
    best = sorted(
        ((around(cell), cell) for cell in most_voted(votes, turned, centres, unit)), key=lambda v: (-v[0], v[1])
    )
    near = Near(centres, 2 * unit)
    for n, cell in best[:2] + [row for row in best[2:] if row[0] == best[0][0]]:
        yield n, settled(turned, near, cell, unit)


def coded(across, up):
    """A cell of shifts as one number: many are counted, and numbers are counted fast."""
    return across * WIDE + up


def decoded(code):
    up = (code + WIDE // 2) % WIDE - WIDE // 2
    return (code - up) // WIDE, up


def counted(turned, centres, unit):
    """For each cell of shifts how many places it brings onto a centre."""
    votes, known = Counter(), {}
    for x, y in turned:
        (across, left), (up, low) = divmod(x, unit), divmod(y, unit)
        if (left, low) not in known:
            known[left, low] = [coded((cx - left) // unit, (cy - low) // unit) for cx, cy in centres]
        own = coded(across, up)
        votes.update({code - own for code in known[left, low]})
    return votes


def most_voted(votes, turned, centres, unit):
    """The cells with most votes; of cells with as many those that come first, place by place."""
    least = min(heapq.nlargest(MOST_VOTED, votes.values()), default=0)
    found = [decoded(code) for code, n in votes.items() if n > least]
    if len(found) + sum(n == least for n in votes.values()) <= MOST_VOTED:
        return [decoded(code) for code, n in votes.items() if n >= least]
    first, wanted = {}, MOST_VOTED - len(found)
    for x, y in turned:
        if len(first) < wanted:
            cells = {((cx - x) // unit, (cy - y) // unit) for cx, cy in centres}
            first.update(dict.fromkeys(cell for cell in cells if votes[coded(*cell)] == least))
    return found + [*islice(first, wanted)]


class Near:
    """Centres by squares."""

    def __init__(self, centres, side):
        self.side, self.squares = side, {}
        for cx, cy in centres:
            self.squares.setdefault((cx // side, cy // side), []).append((cx, cy))

    def within(self, x, y):
        """Those less than a side right of a place and above it."""
        across, up = x // self.side, y // self.side
        return [
            (cx, cy)
            for i in (0, 1)
            for j in (0, 1)
            for cx, cy in self.squares.get((across + i, up + j), ())
            if 0 <= cx - x < self.side and 0 <= cy - y < self.side
        ]


def settled(turned, near, cell, unit):
    """The middle of the shifts near a cell, as whole units."""
    shift = Counter(), Counter()
    for x, y in turned:
        for cx, cy in near.within(x + cell[0] * unit, y + cell[1] * unit):
            shift[0][cx - x] += 1
            shift[1][cy - y] += 1
    return tuple((2 * middle(counts) + unit) // (2 * unit) for counts in shift)


def votes(package, text, declared, without=()):
    """((less the share of the votes, changes), (other unit, form, shift)), over both units and eight forms."""
    copper = [unflattened(package, name) for name in package.manifest.copper]
    files = [text.encode("latin-1"), *copper, *map(package.read, with_vote(package, without))]
    return known(package, counted_votes, files, lambda: counted_votes(package, text, declared, without))


def counted_votes(package, text, declared, without):
    found = []
    for sample_of, centres in voters(package, text, without):
        sample = sample_of[:: max(1, len(sample_of) // SAMPLE)][:SAMPLE]
        for other, unit in enumerate((declared, sum(UNIT_WORDS) - declared)):
            for turn, (_, form) in enumerate(FORMS):
                here = [(x * unit, y * unit) for x, y in sample]
                found += [
                    ((-Q(n, len(sample)), other + (turn > 0) + (by != (0, 0))), (other, turn, by))
                    for n, by in vote(here, centres, form, unit)
                ]
        if found and -min(found)[0][0] > ENOUGH:
            break
    return sorted(found)


def placements(package, without):
    """(share of the votes, change, changed files), the likeliest first; among equal votes the fewest changes first.
    Holes of some files have no vote."""
    name = package.manifest.netlist
    text = text_of(package, name)
    declared = unit_of(text)
    if declared is None or not records(text):
        return
    seen = {(0, 0, (0, 0))}
    for (less, _), (other, turn, by) in votes(package, text, declared, without):
        changed = None if (other, turn, by) in seen else moved(text, FORMS[turn][1], by)
        seen.add((other, turn, by))
        if changed is not None:
            unit = sum(UNIT_WORDS) - declared if other else declared
            change = NetlistPlaced(unit if other else None, turn, (by[0] * unit, by[1] * unit))
            data = changed.encode("latin-1")
            yield -less, change, {name: ipc356.in_other_unit(data) if other else data}
