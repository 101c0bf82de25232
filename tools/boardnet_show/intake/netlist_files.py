"""IPC-D-356A netlists: their test records, and which of several is meant."""
from collections import Counter
from typing import Optional, Sequence

from boardnet_show.base.wording import counted, spoken
from boardnet_show.formats import ipc356

from .file_names import Refused


class Netlist:
    """A netlist: how many test records it has, and how many of holes that are not said to be unplated."""

    def __init__(self, name: str, data: bytes) -> None:
        self.name, self.records, self.through = name, 0, 0
        for line in data.split(b"\n"):
            is_via = line[ipc356.CODE] == ipc356.VIA
            self.records += is_via or ipc356.is_test(line)
            self.through += (is_via or line[ipc356.CODE] == ipc356.THROUGH) and line[ipc356.PLATING] != b"U"


def note(name: str, data: bytes) -> str:
    """What a netlist has that says nothing of test points, or nothing."""
    codes = Counter(ipc356.ANY_PASSED_OVER.findall(data))
    if not codes:
        return ""
    told = spoken(f"{count} of {code.decode()}" for code, count in sorted(codes.items()))
    return f"{name}: {counted(sum(codes.values()), 'record')} that name no test point are passed over: {told}"


def choose(netlists: Sequence[Netlist], wanted: Optional[str]) -> Netlist:
    """The netlist that is named, or the only one."""
    if wanted is not None:
        for it in netlists:
            if it.name == wanted:
                return it
        there = "is" if len(netlists) == 1 else "are"
        raise Refused(f"--netlist {wanted} names no IPC-D-356A netlist of the folder; there {there} {names(netlists)}")
    if len(netlists) > 1:
        raise Refused(f"there are several netlists ({names(netlists)}): say which by --netlist FILE")
    if not netlists:
        raise Refused(
            "there is no IPC-D-356A netlist: export one (KiCad: File, Fabrication Outputs, IPC-D-356 Netlist "
            "File); without one `boardnet show` judges a board by the names that its copper files give their "
            "own pads (TO.P, TO.N), where they do"
        )
    return netlists[0]


def names(netlists: Sequence[Netlist]) -> str:
    return ", ".join(it.name for it in netlists) or "none"
