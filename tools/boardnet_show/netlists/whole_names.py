"""Whole names of nets that a netlist cuts and respells, where the copper's own labels, read by pins, say which they
are.

KiCad writes a name in capitals, other signs than those of ASCII as `?`, of a long one the last 14, and of two that are
then alike the second with a number (`NAME#1`). A name is taken where all pins of it that have a label have the same
one, no pin of another name has that, and the netlist's name is the label so written or cut. All names stay distinct.
"""
import re
from collections import Counter
from typing import Dict, Set, Tuple

from boardnet_show.formats import gerber_attributes, ipc356
from boardnet_show.formats.gerber_lexer import Parts, Plain, Run
from boardnet_show.formats.gerber_machine import Machine
from boardnet_show.geometry.exact import Refused
from boardnet_show.intake.package import Package

Pin = Tuple[str, str]
NUMBERED = re.compile(r"(.*)#[1-9][0-9]*")
BASE = 10  # what is kept of a name that gets a number
FLASH = b"3"


class Labels(Machine):
    """The net that a copper file gives each pin; nothing is asked of shapes."""

    RUNS = PLAIN = True

    def __init__(self, data: bytes) -> None:
        super().__init__()
        self.nets: Dict[Pin, Set[str]] = {}
        self.read(data)

    def note(self) -> None:
        its = self.attributes
        if its.part and its.net:
            self.nets.setdefault((its.part, its.pin), set()).update(its.of_objects[".N"])

    def run(self, run: Run) -> None:
        """Edges of a contour, which is noted where it ends."""

    def plain_words(self, plain: Plain) -> None:
        if any(code == FLASH for _, _, code, _ in plain.words):
            self.note()

    def operation(self, parts: Parts) -> None:
        if parts[4] == FLASH:
            self.note()

    def region_ends(self) -> None:
        super().region_ends()
        self.note()


def labels_of(package: Package) -> Dict[Pin, Set[str]]:
    """The net names of each pin, by all copper files; none where one is not read."""
    found: Dict[Pin, Set[str]] = {}
    for name in package.manifest.copper:
        data = package.read(name)
        if b"TO.P," not in data or b"TO.N," not in data:
            continue
        try:
            nets = Labels(data).nets
        except Refused:
            return {}
        for pin, its in nets.items():
            pin = gerber_attributes.printable_field(pin[0]), gerber_attributes.printable_field(pin[1])
            found.setdefault(pin, set()).update(map(gerber_attributes.printable_field, its))
    return found


def canonical(name: str) -> str:
    """A name in capitals and signs of ASCII, as KiCad has it before it is cut."""
    return "".join(it if "!" <= it <= "~" else "?" for it in name).upper()


def is_written_so(short: str, whole: str) -> bool:
    """Whether a netlist's name is a whole name as KiCad writes it, or cut to its columns at one end."""
    if len(short) == ipc356.NAME_WIDTH and short in (whole[: ipc356.NAME_WIDTH], whole[-ipc356.NAME_WIDTH :]):
        return True
    capitals = canonical(whole)
    number = NUMBERED.fullmatch(short)
    return short == capitals[-ipc356.NAME_WIDTH :] or number is not None and number[1] == capitals[-BASE:]


def cut(pin: Pin) -> Pin:
    """A pin as a netlist's columns have it."""
    return pin[0][: ipc356.COMPONENT_WIDTH], pin[1][: ipc356.PIN_WIDTH]


def pins_of(records: Tuple[ipc356.Record, ...], whole: Dict[str, str]) -> Dict[str, Set[Pin]]:
    """The pins of each name."""
    found: Dict[str, Set[Pin]] = {}
    for record in records:
        name = whole.get(record.name) or record.name
        found.setdefault(name, set())
        if record.component and record.pin:
            found[name].add(cut((record.component, record.pin)))
    return found


def matched(pins: Dict[str, Set[Pin]], labels: Dict[Pin, Set[str]]) -> Dict[str, str]:
    """{a netlist's name: the whole name}, of those that are known."""
    nets_of: Dict[Pin, Set[str]] = {}
    for pin, nets in labels.items():
        nets_of.setdefault(cut(pin), set()).update(nets)
    of = {name: set().union(*(nets_of.get(pin, set()) for pin in its)) for name, its in pins.items()}
    owners = Counter(label for labelled in of.values() for label in labelled)
    found = {name: next(iter(its)) for name, its in of.items() if len(its) == 1 and name != ipc356.NO_NET}
    return {
        name: whole
        for name, whole in found.items()
        if name != whole and owners[whole] == 1 and whole not in pins and is_written_so(name, whole)
    }


def of_package(package: Package) -> Dict[str, str]:
    """The whole names of a package's netlist, by the names that it has."""
    try:
        data = package.read(package.manifest.netlist)
    except OSError:
        return {}
    try:
        labels = labels_of(package)
    except OSError:
        return {}
    return matched(pins_of(ipc356.records(data), ipc356.aliases(data)), labels) if labels else {}
