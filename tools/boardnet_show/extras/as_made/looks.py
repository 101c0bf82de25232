"""Which looks at the board as it will be made are wanted: most boards have nothing that takes copper away, and loading
them takes longer than a small board.
"""
from typing import Any

from boardnet_show.bounds.files import profile_files
from boardnet_show.findings.besides import Requested
from boardnet_show.findings.explained import Explained
from boardnet_show.findings.finding import CUT, OUTSIDE
from boardnet_show.findings.notes import CutsNotAsked
from boardnet_show.intake import unplated_holes

from . import thin_joins


def requested(program: Any, judged: Any, seen: Explained, asked: Any) -> Requested:
    """What unplated holes and the board's edge take away from a judged board, or that this was left away; its necks,
    and its holes by the netlist."""
    package, told = judged.package, Requested(kinds=[CUT, OUTSIDE])
    holes, profiles = list(unplated_holes.of_package(package)), profile_files.texts(package.around)
    if asked.no_cuts and (holes or profiles):
        count = sum(len(it.lines) for it in holes) if holes else None
        told = Requested(notes=[CutsNotAsked(count, bool(profiles))])
    elif holes or profiles:
        from . import looking

        told = looking.requested(program, judged, seen.board, holes, profiles)
    if asked.audit_board:
        from . import board_audit

        told = told.joined(board_audit.requested(program, judged, seen.board))
    if asked.necks is not None:
        from . import necks

        return told.joined(necks.requested(program, judged, seen.board, asked.necks))
    return told.joined(Requested(notes=thin_joins.notes(program, judged, seen.board)))
