"""Files in all readers: places, what each reads of them, whole areas, and smaller files that still differ."""
import random
import time
import traceback
from collections import Counter
from typing import Dict, List, NamedTuple, Optional, Tuple

from . import BARE, COPPER, FARTHEST, NEAR, places
from .files import File
from .klayout import Left, Looked, Task
from .ours import Ours, Reading
from .others import Told
from .smallest import joined, parts_of, smallest

Place = Tuple[int, int]
# Of the places that differ at first sight so many are looked at again first; so many files are tried for a smaller one.
MOST_AGAIN, MOST_TRIALS = 12, {"gerbv": 150, "KLayout": 80, "camv-rnd": 100}
SAME_IN, SAME_OUT, DIFFER, SETTLED = "same, copper", "same, none", "differ", "settled by a second look"
CLOSE, BETWEEN, UNSEEN = "near a border", "between bounds", "not in view"


class Asked(NamedTuple):
    """What is asked of each file: places of each sort, and a seed."""

    places: int = 2_000
    seed: int = 1


class Differing(NamedTuple):
    """A place in whole micrometres, boardnet's state and the reader's."""

    place: Place
    ours: int
    other: int


class Row(NamedTuple):
    """What came of a file."""

    file: str
    kind: str
    how: str
    why: str = ""
    pieces: int = 0
    places: int = 0
    counts: Dict[str, Counter] = {}
    differ: Dict[str, List[Differing]] = {}
    alone: List[Place] = []
    left: List[Left] = []
    said: Dict[str, str] = {}
    unread: List[str] = []
    fault: str = ""
    seconds: float = 0


class Work:
    """A file on its way: how boardnet takes it, and the places that are asked of all."""

    def __init__(self, file: File, reading: Reading, ours: Ours, asked: Asked):
        self.file, self.reading, self.ours, self.asked = file, reading, ours, asked
        self.rng = random.Random(f"{asked.seed} {len(file.data)} {file.data[:200]!r}")
        self.flats = self.normal_forms()
        pieces = [places.pieces_of(flat) for flat in self.flats] if self.flats else [places.holes_of(file.data)]
        self.pieces = max(map(len, pieces))
        self.places = places.anywhere(self.rng, pieces[-1], asked.places)
        for some in pieces:
            self.places += places.near(self.rng, some, asked.places)
        self.bounds: List[Tuple[int, int]] = []

    def normal_forms(self) -> List[bytes]:
        if self.file.kind == "drill":
            return []
        files = [self.reading.below] + [self.reading.above] * (self.reading.above is not self.reading.below)
        found = [self.ours.flattened(data) for data in files]
        if None in found:
            raise ValueError("flatten refuses what check takes")
        return found

    def task(self) -> Task:
        """What KLayout is asked: of one file both have the same area, of two the real copper lies between them."""
        flats = dict(zip(("below", "above"), self.flats))
        pairs = [("below", "file", False), ("file", "above", False)]
        pairs = pairs if len(flats) == 2 else [("file", name, True) for name in flats]
        given = {"file": self.file.data, **flats}
        return Task(given, self.file.kind, self.places, pairs, self.asked.places, self.asked.seed)

    def add(self, looked: Looked) -> Looked:
        """Takes the places that KLayout adds, which its states have too."""
        kept = [k for k, place in enumerate(looked.borders) if max(map(abs, place)) <= FARTHEST]
        states = looked.told.states
        if states is not None:
            states = states[: len(self.places)] + [states[len(self.places) + k] for k in kept]
        self.places += [looked.borders[k] for k in kept]
        return looked._replace(told=Told(states, looked.told.said))

    def ask_ours(self) -> None:
        self.bounds = self.ours.states(self.reading, self.file.kind, self.places)


def sort_of(bounds: Tuple[int, int], state: Optional[int]) -> str:
    """How a reader's state stands to boardnet's two bounds."""
    below, above = bounds
    if state is None:
        return UNSEEN
    if state == NEAR:
        return CLOSE
    if below != above:
        return BETWEEN
    return DIFFER if state != below else SAME_IN if below == COPPER else SAME_OUT


def judged(work: Work, told: Told) -> Tuple[Counter, List[Differing]]:
    """Counts of a reader's states, and the places that it has otherwise."""
    sorts = [sort_of(bounds, state) for bounds, state in zip(work.bounds, told.states)]
    off = [k for k, sort in enumerate(sorts) if sort == DIFFER]
    return Counter(sorts), [Differing(work.places[k], work.bounds[k][0], told.states[k]) for k in off]


def settled(reader, file: File, counts: Counter, differ: List[Differing]) -> List[Differing]:
    """Those that still differ where they are looked at again; where none of the first is settled, the rest is not."""
    left, first = [], differ[:MOST_AGAIN]
    for some in (first, differ[MOST_AGAIN:]):
        states = reader.again(file.data, file.kind, [it.place for it in some]) if some else []
        left += some if states is None else [it for it, state in zip(some, states) if state == it.other]
        if left == first:
            return differ
    counts[SETTLED] += len(differ) - len(left)
    counts[DIFFER] -= len(differ) - len(left)
    return left


def alone(work: Work, states: Dict[str, List[Optional[int]]], differ: Dict[str, List[Differing]]) -> List[Place]:
    """Places that all readers that tell them, two at least, still have otherwise than boardnet."""
    off = {name: {it.place for it in differ.get(name, ())} for name in states}
    found = []
    for k, place in enumerate(work.places):
        told = [name for name, some in states.items() if some[k] in (COPPER, BARE)]
        if len(told) > 1 and all(place in off[name] for name in told):
            found.append(place)
    return found


def smaller(file: File, how: str, reader, it: Differing, ours: Ours) -> bytes:
    """A smaller file that boardnet and a reader have otherwise at that place, as they do in this one; or nothing."""

    def holds(parts: List[bytes]) -> bool:
        data = joined(parts)
        if ours.bounds_at(data, file.kind, it.place, how == "exact") != (it.ours, it.ours):
            return False
        return reader.again(data, file.kind, [it.place]) == [it.other]

    parts = parts_of(file.data, file.kind)
    return joined(smallest(parts, holds, MOST_TRIALS[reader.name])) if holds(parts) else b""


def finished(work: Work, readers: list, looked: Optional[Looked]) -> Row:
    """Asks boardnet and the others of all places, and what differs again."""
    work.ask_ours()
    file, told, counts, differ = work.file, {}, {}, {}
    for reader in readers:
        told[reader.name] = looked.told if reader.has_areas else reader.states(file.data, file.kind, work.places)
    read = {name: it.states for name, it in told.items() if it.states is not None}
    for reader in readers:
        if reader.name in read:
            counts[reader.name], found = judged(work, told[reader.name])
            found = settled(reader, file, counts[reader.name], found)
            differ.update({reader.name: found} if found else {})
    return Row(
        file.name,
        file.kind,
        work.reading.how,
        work.reading.why,
        work.pieces,
        len(work.places),
        counts,
        differ,
        alone(work, read, differ),
        looked.left if looked else [],
        {name: it.said for name, it in told.items() if it.said},
        [name for name in told if name not in read],
    )


def compared(files: List[File], ours: Ours, readers: list, asked: Asked) -> List[Row]:
    """The rows of some files. KLayout, which is slow to begin, is asked once for all."""
    rows, works, begun = [], [], time.monotonic()
    for file in files:
        try:
            reading = ours.reading(file.data, file.kind)
            if reading.below:
                works.append(Work(file, reading, ours, asked))
            else:
                rows.append(Row(file.name, file.kind, reading.how, reading.why))
        except Exception:
            rows.append(Row(file.name, file.kind, "fault", fault=traceback.format_exc()))
    area = next((reader for reader in readers if reader.has_areas), None)
    looked = area.looked([work.task() for work in works]) if area and works else [None] * len(works)
    for work, it in zip(works, looked):
        try:
            rows.append(finished(work, readers, it and work.add(it)))
        except Exception:
            rows.append(Row(work.file.name, work.file.kind, "fault", fault=traceback.format_exc()))
    return [row._replace(seconds=(time.monotonic() - begun) / len(files)) for row in rows]
