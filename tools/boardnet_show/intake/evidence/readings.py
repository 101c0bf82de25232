"""Readings that only the board tells, of all its files: each with its words and the copy that `check` takes."""
from typing import Callable, Iterator, List, NamedTuple, Sequence

from . import arc_readings, netlist_readings
from .pad_middles import Middles

FEWEST = 8  # places that decide
ENOUGH = 95, 100  # of them lie on pads
AT_MOST = 1, 3  # of those, by any other reading
ASK = "the files do not say how they are read: if this is right, say --yes; else export them anew"


class Reading(NamedTuple):
    """A file as it is read: `words` say how and by what evidence."""

    file: str
    words: str
    data: bytes

    def sentence(self) -> str:
        return f"{self.file} {self.words}"


def is_clear(count: int, all_places: int, others: Sequence[int]) -> bool:
    """Whether so many places on pads decide for a reading, with those of the others."""
    is_enough = all_places >= FEWEST and count * ENOUGH[1] >= all_places * ENOUGH[0]
    return is_enough and all(other * AT_MOST[1] <= count * AT_MOST[0] for other in others)


def of_files(read: Callable[[str], bytes], copper: Sequence[str], netlist: str) -> Iterator[Reading]:
    """The readings of a board's files, as they are mended; `read` gives a file's bytes, or nothing where there are
    none."""
    data = read(netlist)
    middles: List[Middles] = []

    def pads() -> Middles:
        """Read once, where they are wanted: most boards want none."""
        if not middles:
            middles.append(Middles(map(read, copper)))
        return middles[0]

    found = netlist_readings.reading(data, len(copper), pads, is_clear)
    if found:
        yield Reading(netlist, *found)
    for name in dict.fromkeys(copper):
        of_arcs = arc_readings.reading(read(name))
        if of_arcs:
            yield Reading(name, *of_arcs)
