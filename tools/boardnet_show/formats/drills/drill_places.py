"""The places of a drill file whose numbers have points, in u."""
from functools import lru_cache
from typing import Iterator, Optional, Tuple

from .drill_lines import BODY, Unit, lines, places_of

MANY = 20_000


def unit_of(data: bytes) -> Optional[int]:
    """The unit that the first line with one says, in u."""
    records = (line.record() for line in lines(data) if line.text[:1] in (b"M", b"I"))
    return next((record.unit for record in records if isinstance(record, Unit)), None)


@lru_cache(maxsize=MANY)
def length(number: bytes, unit: int) -> int:
    """A number with a point in u, rounded as fractions are: a half to the even one."""
    whole, _, part = number.partition(b".")
    over: int = 10 ** len(part)
    u, rest = divmod(int(whole + part) * unit, over)
    return u + (2 * rest > over or 2 * rest == over and u % 2)


def places(data: bytes) -> Iterator[Tuple[int, int]]:
    """Each place in its order, those of moves too; a missing coordinate stays."""
    unit, at = unit_of(data), [0, 0]
    for line in lines(data) if unit else ():
        if line.part == BODY and b"." in line.text:
            for place in places_of(line.record()):
                for axis, number in enumerate(place):
                    if number is not None:
                        at[axis] = length(number, unit or 0)
                yield at[0], at[1]
