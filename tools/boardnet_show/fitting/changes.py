"""What is changed in a copy of a board's files so that they fit together, as values. Hints find them, and declarations
say them; lengths are in u, and a turn is a number of `placement.FORMS`."""
from typing import NamedTuple, Optional, Tuple, Union

Shift = Tuple[int, int]
# Why layers have an order.
SAID, POINTS = "said", "points"


class NetlistPlaced(NamedTuple):
    """The netlist read in another unit, turned, and then moved; `unit` is that other unit, or None."""

    unit: Optional[int]
    turn: int
    by: Shift


class DrillsPlaced(NamedTuple):
    """Drill files turned and then moved; `are_all` where these are all that the board has."""

    files: Tuple[str, ...]
    are_all: bool
    turn: int
    by: Shift


class CopperPlaced(NamedTuple):
    """The copper turned and then moved: netlist and drills go the other way."""

    turn: int
    by: Shift


class LayersOrdered(NamedTuple):
    """The copper files in another order, and why: as they say of themselves, where surface points have a pad, or as is
    declared; `is_inner_unknown` where points cannot tell the order of inner layers."""

    order: Tuple[str, ...]
    why: str = ""
    is_inner_unknown: bool = False


class DigitsRead(NamedTuple):
    """The numbers of a drill file without points: so many decimals behind, or, where trailing zeros are left out,
    filled up to `width` digits. So many of its holes lie on a through point, where that was looked for."""

    file: str
    decimals: int
    width: int
    on: int = 0
    holes: Optional[int] = None


class DecimalsRead(NamedTuple):
    """The numbers of all drill files without points."""

    files: Tuple[DigitsRead, ...]


class CodesRead(NamedTuple):
    """Access codes of so many records read otherwise, by a rule of `access_codes`; `last` is the board's last layer."""

    rule: str
    records: int
    last: int


class NowherePlaced(NamedTuple):
    """No placement fits: the best leaves so many of all test points without copper."""

    missing: int
    points: int


Change = Union[NetlistPlaced, DrillsPlaced, CopperPlaced, LayersOrdered, DecimalsRead, CodesRead]
