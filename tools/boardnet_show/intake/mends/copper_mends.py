"""The mends of a copper file. Words that go leave others without an effect behind, so that commands keep their
numbers."""
from typing import List, Set, Tuple

from boardnet_show.formats.gerber_lexer import Broken
from boardnet_show.formats.gerber_machine import MOST_EDGES

from . import coordinate_forms, definitions, identities
from .edits import Edits
from .mend import Mend


def seldom(edits: Edits, macros: List[Tuple[definitions.Macro, List[definitions.Aperture]]], names: Set[bytes]) -> None:
    """What few files have: macros that are turned, and long contours."""
    if macros:
        from . import quarter_turns

        quarter_turns.rewrite(edits, macros, names)
    if edits.data.count(b"*") > MOST_EDGES:
        from . import long_contours

        long_contours.rewrite(edits)


def mended(data: bytes) -> Tuple[bytes, List[Mend]]:
    """A copper file as it is mended, and its mends; the same bytes where there are none."""
    forms = Edits(data)
    try:
        coordinate_forms.coordinates(forms)
        edits = Edits(forms.mended_bytes() if forms.edits else data)
        identities.extended(edits)
        identities.plain(edits)
        identities.comments(edits)
        coordinate_forms.contours(edits)
        found = definitions.Definitions(edits)
        seldom(edits, found.rewrite(), {macro.name for macro in found.macros})
    except Broken:
        return data, []
    mends = sorted([*forms.mends(), *edits.mends()], key=lambda mend: mend.line)
    return (edits.mended_bytes(), mends) if mends else (data, [])
