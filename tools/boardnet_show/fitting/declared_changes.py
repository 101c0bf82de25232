"""Changes that are declared of a board's files, made of them in the scratch folder as hints make them of copies."""
from fractions import Fraction as Q
from typing import Dict, List, NamedTuple, Optional, Sequence, Tuple, Union

from boardnet_show.base.statuses import UNCLEAR, Stop
from boardnet_show.formats import ipc356
from boardnet_show.formats.manifest import Manifest
from boardnet_show.intake.package import Drilled, Package, Taken

from . import access_codes
from .changes import Change, CodesRead, CopperPlaced, DecimalsRead, DrillsPlaced, LayersOrdered, NetlistPlaced, Shift
from .drill_decimals import Reading, bare_numbers, with_point
from .drill_placement import BACK, drill_moved
from .placement import FORMS, moved, text_of

Files = Dict[str, bytes]


class Declaration(NamedTuple):
    """What is declared, and where: a change of files, or what a file is taken as. It is stale where it changed nothing
    or there is no such file; `was_made` says that the files had the change before; `files` are those that it
    changed."""

    what: Union[Change, Taken, Drilled]
    source: str
    is_stale: bool = False
    was_made: bool = False
    files: Tuple[str, ...] = ()


def unfit(why: str) -> Stop:
    return Stop(UNCLEAR, f"what is declared does not fit these files: {why}")


def drills_of(package: Package, files: Sequence[str]) -> List[str]:
    """The drill files that are meant: these, or all."""
    names = [name for name, _, _ in package.manifest.drills]
    for name in files:
        if name not in names:
            raise unfit(f"the board has no drill file {name}")
    return list(files) or names


def netlist_moved(package: Package, turn: int, by: Shift, unit: Optional[int] = None) -> Files:
    """The netlist in another unit, turned and moved."""
    name = package.manifest.netlist
    declared = ipc356.unit_of(package.read(name))
    if declared is None:
        raise unfit(f"{name} does not say its unit")
    is_other, unit = unit not in (None, declared), unit or declared
    text = moved(text_of(package, name), FORMS[turn][1], tuple(round(Q(v, unit)) for v in by))
    if text is None:
        raise unfit(f"six digits do not hold the places of {name} once they are moved")
    data = text.encode("latin-1")
    return {name: ipc356.in_other_unit(data) if is_other else data}


def drills_moved(package: Package, names: Sequence[str], turn: int, by: Shift) -> Files:
    files = {name: drill_moved(package.read(name), FORMS[turn][1], by) for name in names}
    for name, data in files.items():
        if data is None:
            raise unfit(f"{name} does not say its unit")
    return {name: data for name, data in files.items() if data is not None}


def copper_moved(package: Package, change: CopperPlaced) -> Files:
    """Netlist and drills moved the other way, by whole units of the netlist."""
    turn = BACK[change.turn]
    unit = ipc356.unit_of(package.read(package.manifest.netlist)) or 1
    x, y = (round(Q(v, unit)) * unit for v in FORMS[turn][1](*(-v for v in change.by)))
    return {**netlist_moved(package, turn, (x, y)), **drills_moved(package, drills_of(package, ()), turn, (x, y))}


def read_digits(package: Package, change: DecimalsRead) -> Files:
    files = {}
    for it in change.files:
        drills_of(package, [it.file])
        data = package.read(it.file)
        files[it.file] = with_point(data, Reading(it.decimals, it.width)) if bare_numbers(data) else data
    return files


def read_codes(package: Package, change: CodesRead) -> Tuple[Change, Files]:
    rule = dict(access_codes.RULES)[change.rule]
    return next(access_codes.recoded(package, change.rule, rule), (change._replace(last=package.manifest.layers), {}))


def in_order(package: Package, change: LayersOrdered) -> Manifest:
    if sorted(change.order) != sorted(package.manifest.copper):
        raise unfit(
            f"the copper files are {', '.join(package.manifest.copper)}, and the order of {', '.join(change.order)} is"
            " declared"
        )
    return package.manifest.changed(copper=list(change.order))


def changed(package: Package, change: Change) -> Tuple[Change, Files, Optional[Manifest]]:
    """The change as it is told, the files that it changes, and the manifest where it changes that."""
    if isinstance(change, NetlistPlaced):
        return change, netlist_moved(package, change.turn, change.by, change.unit), None
    if isinstance(change, DrillsPlaced):
        names = drills_of(package, change.files)
        return change._replace(files=tuple(names)), drills_moved(package, names, change.turn, change.by), None
    if isinstance(change, CopperPlaced):
        return change, copper_moved(package, change), None
    if isinstance(change, LayersOrdered):
        return change, {}, in_order(package, change)
    if isinstance(change, DecimalsRead):
        return change, read_digits(package, change), None
    return (*read_codes(package, change), None)


def make(package: Package, change: Change, source: str) -> Declaration:
    """Changes a package's files in the scratch folder."""
    told, files, manifest = changed(package, change)
    unlike = tuple(name for name, data in files.items() if package.read(name) != data)
    is_stale = not unlike and (manifest is None or manifest.copper == package.manifest.copper)
    for name, data in files.items():
        package.put(name, data)
    if manifest:
        package.manifest = manifest
        package.put(package.name, manifest.json_text().encode())
    return Declaration(told, source, is_stale, files=unlike)
