"""How the numbers of a drill file are read where nothing says it: the one reading by which its holes, and the middles
of its slots, lie on middles of pads.

What is found so is evidence and no certainty: it is told, and taken only where the user says so.
"""
from fractions import Fraction
from typing import Callable, Dict, Iterable, Iterator, List, NamedTuple, Optional, Set, Tuple

from boardnet_show.formats.drills.drill_lines import BEHIND, Hit, Place, Repeat, Rout, lines, places_of
from boardnet_show.formats.drills.drill_plating import Plating
from boardnet_show.formats.drills.number_forms import (
    LEADING,
    TRAILING,
    UNIT_NAMES,
    NumberForm,
    Said,
    Settled,
    bare_numbers,
)
from boardnet_show.formats.units import INCH, MM

from .pad_middles import NEAR, Middles
from .readings import AT_MOST, ENOUGH, FEWEST, is_clear

# Excellon's digits, by the unit.
DEFAULTS = {INCH: (2, 4), MM: (3, 3)}
MOST_DIGITS = 7

Cell = Tuple[int, int]  # of places, or a place in u
Texts = Tuple[bytes, ...]  # x and y of a place, or of both ends


class Reading(NamedTuple):
    """A unit, and how numbers without a point are read."""

    unit: int
    form: NumberForm

    def words(self) -> str:
        whole = self.form.whole or DEFAULTS[self.unit][0]
        return self.form._replace(whole=whole).words(f" {UNIT_NAMES[self.unit]}")


class Fit(NamedTuple):
    """A reading, how many of the holes lie on pads by it, and whether its writer would write all these numbers; `at`
    are the places of the holes, and `hits` whether each is on a pad."""

    reading: Reading
    on: int
    holes: int
    is_written: bool = True
    at: Tuple[Cell, ...] = ()
    hits: Tuple[bool, ...] = ()

    def is_enough(self) -> bool:
        return self.holes >= FEWEST and self.on * ENOUGH[1] >= ENOUGH[0] * self.holes

    def leaves(self, other: "Fit") -> bool:
        """Whether another reading is no rival: far fewer holes fit it; where its writer would not write these numbers,
        of those alone that lie elsewhere by it, which are enough to decide."""
        if other.on * AT_MOST[1] <= self.on * AT_MOST[0]:
            return True
        apart = [both for a, b, *both in zip(self.at, other.at, self.hits, other.hits) if a != b]
        mine, theirs = (sum(hits) for hits in zip(*apart)) if apart else (0, 0)
        return not other.is_written and is_clear(mine, len(apart), [theirs])

    def words(self, others: List["Fit"]) -> str:
        """The evidence, in words."""
        most = max((it.on for it in others if it.is_written), default=0)
        return (
            f"{self.on} of {self.holes} holes lie on middles of pads, and over {most} by no other reading that the "
            "numbers allow"
        )


def digits_first(default: int) -> List[int]:
    return [default, *(n for n in range(1, MOST_DIGITS + 1) if n != default)]


def forms(said: Said, unit: int, width: int) -> Iterator[NumberForm]:
    """The readings that the header allows, Excellon's first; `width` is the length of the longest number."""
    zeros = [LEADING, TRAILING] if said.zeros is None else [TRAILING] if said.zeros == TRAILING else [LEADING]
    whole, decimals = DEFAULTS[unit]
    for its in zeros:
        if said.digits:
            yield NumberForm(*said.digits, its)
        elif its == LEADING:
            yield from (NumberForm(0, n, its) for n in digits_first(decimals))
        else:
            yield from (NumberForm(n, max(width - n, 1), its) for n in digits_first(whole) if n < width)


def readings(said: Said, bare: List[bytes]) -> Iterator[Reading]:
    """All readings that the header allows."""
    width = max(len(number.lstrip(b"+-")) for number in bare)
    for unit in (INCH, MM) if said.unit is None else (said.unit,):
        yield from (Reading(unit, form) for form in forms(said, unit, width))


def holes_of(data: bytes) -> List[Texts]:
    """The numbers of all holes that are not called unplated, of slots and routs those of both ends; each once, what is
    missing stays."""
    unplated = {number for number, called in Plating(data).holes() if called == {False}}
    last, found = Place(b"0", b"0"), set()
    for line in lines(data):
        record = line.record() if line.part != BEHIND else None
        # A rout goes on from where the tool is.
        ends = [last] if isinstance(record, Rout) else []
        for place in places_of(record) if record else ():
            last = Place(place.x or last.x, place.y or last.y)
            ends.append(last)
        if isinstance(record, (Hit, Rout)) and line.number not in unplated:
            found.add(tuple(text or b"0" for place in ends for text in place))
    return sorted(found)


def repeated(data: bytes) -> int:
    """How many holes repeats make."""
    records = (line.record() for line in lines(data) if line.text[:1] == b"R" and line.part != BEHIND)
    return sum(record.times for record in records if isinstance(record, Repeat))


def length(number: bytes, reading: Reading) -> int:
    """A number in u, to the nearest."""
    form, behind = reading.form, 0
    if b"." in number:
        return round(Fraction(number.decode()) * reading.unit)
    if form.zeros == TRAILING:
        behind = max(form.width() - len(number.lstrip(b"+-")), 0)
    over: int = 10**form.decimals
    shifted: int = int(number) * 10**behind
    return (2 * shifted * reading.unit + over) // (2 * over)


def around(pads: Middles) -> Set[Cell]:
    """All cells near one with a pad."""
    return {(x + i, y + j) for x, y in pads.cells for i in (-1, 0, 1) for j in (-1, 0, 1)}


def middle(ends: List[int]) -> Cell:
    """A hole's place in u, of a slot that of its middle."""
    count = len(ends) // 2
    return sum(ends[::2]) // count, sum(ends[1::2]) // count


def fits(holes: List[Texts], its: Iterable[Reading], cells: Set[Cell]) -> List[Fit]:
    """How many holes lie on pads by each reading; of readings that give all holes the same places the first."""
    texts = list({text for hole in holes for text in hole})
    found: Dict[Tuple[int, ...], Fit] = {}
    for reading in its:
        key = tuple(length(text, reading) for text in texts)
        if key not in found:
            of = dict(zip(texts, key))
            at = tuple(middle([of[text] for text in hole]) for hole in holes)
            hits = tuple((x // NEAR, y // NEAR) in cells for x, y in at)
            is_written = not reading.form.wrong_number([(0, text) for text in texts])
            found[key] = Fit(reading, sum(hits), len(holes), is_written, at, hits)
    return list(found.values())


class Evidence:
    """What the pads of a board say of its drill files; `copper` gives the copper files as they are judged."""

    def __init__(self, copper: Callable[[], List[bytes]]) -> None:
        self.copper = copper
        self.known: Optional[Set[Cell]] = None

    def cells(self) -> Set[Cell]:
        if self.known is None:
            self.known = around(Middles(self.copper()))
        return self.known

    def best(self, data: bytes, its: Said) -> Optional[Tuple[Fit, List[Fit]]]:
        """The one reading that the pads confirm, and the others; or nothing."""
        bare = [number for _, number in bare_numbers(data)]
        holes = holes_of(data) if bare else []
        if len(holes) < FEWEST:
            return None
        # Where repeats lie is not looked at: all count as holes off pads.
        more = repeated(data)
        found = [fit._replace(holes=fit.holes + more) for fit in fits(holes, readings(its, bare), self.cells())]
        first = max(found, key=lambda fit: fit.on)
        others = [fit for fit in found if fit is not first]
        if not first.is_enough() or not first.is_written or not all(map(first.leaves, others)):
            return None
        return first, others

    def reading(self, data: bytes, its: Said) -> Optional[Tuple[Settled, str, str]]:
        """How a file is read by its holes: also in words, with the evidence; or nothing."""
        found = self.best(data, its)
        if not found:
            return None
        fit, others = found
        words = fit.words(others)
        return Settled(fit.reading.unit, fit.reading.form, 0, words), fit.reading.words(), words

    def against(self, data: bytes, its: Settled) -> str:
        """Why a reading that is said cannot be meant: most holes miss the pads by it, and lie on them by one other;
        or nothing."""
        if its.form is None or its.unit is None:
            return ""
        holes = holes_of(data)
        mine = fits(holes, [Reading(its.unit, its.form)], self.cells())
        if len(holes) < FEWEST or not mine or 2 * mine[0].on > len(holes):
            return ""
        bare = [number for _, number in bare_numbers(data)]
        other = max(fits(holes, readings(Said(), bare), self.cells()), key=lambda fit: fit.on)
        if not other.is_enough():
            return ""
        return f"by it {mine[0].on} of {len(holes)} holes lie on middles of pads, by {other.reading.words()} {other.on}"
