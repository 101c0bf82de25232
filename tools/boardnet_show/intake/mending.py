"""Mended copies in the scratch folder, and how the answer says that they were judged."""
import os
from functools import partial
from typing import Optional

from boardnet_show.base.refusals import Advice, Refusal
from boardnet_show.base.statuses import REFUSED, UNCLEAR, Stop
from boardnet_show.formats.drills.drill_plating import in_both_ways, unplated_hole, unread_function
from boardnet_show.formats.gerber_lexer import may_lack_quadrants
from boardnet_show.intake.mends import mended_files as mends, netlist_mends

from .evidence import drill_numbers
from .package import Taken


def mend(package, progress, is_yes=False, said=()):
    """Rewrites what `check` refuses and the files say otherwise, in the package's folder; what was mended is noted in
    it. What the board alone says of a file is taken where that was said to be right, or is among what is `said` to be
    taken."""
    if not package.manifest:
        return
    progress.begin("looking for what to mend")
    doubts = rewritten(package, partial(progress.step, "looking for what to mend, file"))
    unsaid = [it for it in doubts if it not in said]
    if unsaid and not is_yes:
        from .evidence import readings  # few boards want them

        raise Stop(UNCLEAR, readings.ASK, would_be_taken(unsaid))
    package.guessed += map(sentence, unsaid)
    package.taken += doubts


def sentence(taken):
    return f"{taken.file} {taken.what}"


def would_be_taken(doubts):
    return [f"would be taken: {sentence(it)}" for it in doubts]


def with_readings(unconfirmed):
    """What stops a folder that wants a yes, with all that it is wanted for."""
    try:
        doubts = rewritten(unconfirmed.package)
    except (Stop, OSError, ValueError):
        doubts = []
    return Stop(unconfirmed.status, unconfirmed.words, [*unconfirmed.rows, *would_be_taken(doubts)])


def rewritten(package, told=lambda number, count: None):
    """Does it, and answers what the board alone says of its files; `told` hears which file it is."""
    drills = [name for name, _, _ in package.manifest.drills]
    need_functions(package)
    need_plated(package, drills)
    netlist = package.manifest.netlist
    need_names(package, netlist)
    settling = drill_numbers.Settling(
        package.around, lambda: [bytes_of(package, name) for name in package.manifest.copper]
    )
    # A copy of a netlist that lies elsewhere cannot stand under its name, which is said where one is wanted.
    its = mends.of_files(
        lambda name: (read if name == netlist else bytes_of)(package, name),
        package.manifest.copper,
        drills,
        netlist,
        settling,
        told,
    )
    for name, data, mends_of_it, lines in its:
        package.put(name, data)
        package.mends += mends_of_it
        if lines is not None:
            package.lines[name] = lines
    return [Taken(name, f"as {how}") for name, how in settling.taken()] + taken(package)


def taken(package):
    """Has files read as the board says, and answers how."""
    if not wants_readings(package):
        return []
    from .evidence import readings  # few boards want them

    found = list(
        readings.of_files(lambda name: bytes_of(package, name), package.manifest.copper, package.manifest.netlist)
    )
    for it in found:
        package.put(it.file, it.data)
    return [Taken(it.file, it.words) for it in found]


def wants_readings(package):
    """Whether a file may not say how it is read."""
    its = package.manifest
    return netlist_mends.may_be_open(bytes_of(package, its.netlist), its.layers) or any(
        may_lack_quadrants(bytes_of(package, name)) for name in its.copper
    )


def need_functions(package):
    """Refuses a drill file that says of itself what `check` would refuse, in a form that it passes over."""
    for name, first, last in package.manifest.drills:
        data = bytes_of(package, name)
        need_one_kind(name, data)
        kind, line = unread_function(data, first, last) or ("", 0)
        if kind:
            place = sum(len(it) + 1 for it in data.split(b"\n")[: line - 1])
            from . import cad_tools  # as below

            way = cad_tools.way(kind.split()[-1], cad_tools.tool_of(data))
            raise Stop(
                REFUSED,
                f"{name}: {kind} at line {line}, byte {place}, by a form of the file function that `check` passes over"
                + (f"; to export: {way}" if way else ""),
            )


def need_one_kind(name, data):
    """Refuses a drill file with a word that says of holes that they are plated and that they are not."""
    found = in_both_ways(data)
    if found:
        from . import cad_tools  # as below

        way = cad_tools.way("MixedPlating", cad_tools.tool_of(data))
        raise Stop(
            REFUSED,
            (
                f"{name}: line {found.line}, `{found.words}`, says that holes are plated and that they are not; to"
                f" export: {way}"
            ),
        )


def need_plated(package, drills):
    """Refuses a drill file with holes that it calls unplated and that `check` would take as plated."""
    for name in drills:
        data = bytes_of(package, name)
        line = unplated_hole(data)
        if line:
            from . import cad_tools  # few boards are refused

            raise Stop(
                REFUSED,
                (
                    f"{name}: line {line} makes a hole that the file itself calls unplated, and what it says of the"
                    " others does not fit or is missing, so that hole would join layers; to export:"
                    f" {cad_tools.way('MixedPlating', cad_tools.tool_of(data))}"
                ),
            )


def need_names(package, name):
    """Refuses a netlist of which it is not known which records are of one net."""
    why = netlist_mends.unclear(read(package, name), package.manifest.layers)
    if why:
        raise Stop(REFUSED, f"{name}: {why}: have each name stand for one net, and each net have one name")


def read(package, name):
    """The bytes of a file; none where it cannot be read, which `check` says."""
    try:
        return package.read(name)
    except OSError:
        return b""


def bytes_of(package, name):
    """The bytes of a file beside the manifest."""
    return b"" if os.path.isabs(name) else read(package, name)


def way_out(package, refusal: Optional[Refusal]) -> Advice:
    """The way out of a refusal of one of a package's files."""
    if not refusal:
        return Advice(0, "")
    from . import export_advice  # as above

    return export_advice.way_out(refusal, lambda name: bytes_of(package, name))
