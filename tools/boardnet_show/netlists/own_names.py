"""A netlist of the copper's own names: how it begins, and what an answer by it says.

`pad_names` makes it, and is loaded where it does; `whole_names` likewise.
"""
import os

from boardnet_show.base.statuses import UNDECIDED
from boardnet_show.formats import ipc356
from boardnet_show.intake.package import Package

MADE = "C made by boardnet show of the copper's own attributes"
# Statuses of an answer: agrees, differs, undecided.
ANSWERS = (0, 1, UNDECIDED)


def made_before(package: Package) -> str:
    """The package's netlist, where it was made here, as --keep keeps it; else nothing."""
    name: str = package.manifest.netlist
    return name if os.path.exists(package.path(name)) and package.read(name).startswith(MADE.encode()) else ""


def take_whole(package: Package) -> None:
    """Has names that a netlist cuts told as the copper's own labels have them, where those say which they are."""
    name = package.manifest.netlist if package.manifest and not package.own else ""
    if name and os.path.exists(package.path(name)) and ipc356.has_other_names(package.read(name)):
        from . import whole_names  # most boards want none

        package.whole = whole_names.of_package(package)
