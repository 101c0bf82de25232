"""Macros whose rotation is a parameter: written by its values, where all of these are quarter turns."""
import re
from decimal import Decimal
from fractions import Fraction
from typing import Dict, Iterator, List, Optional, Set, Tuple

from boardnet_show.formats.gerber_lexer import DECIMAL

from .definitions import Aperture, Macro
from .edits import Edits
from .table import TURN

PARAMETER = re.compile(rb"\$([1-9][0-9]{0,2})")
# Primitives that `flatten` takes with a rotation as their last part, and how many parts they have; an outline has as
# many as it says.
ROTATED = {b"1": 7, b"4": None, b"20": 8, b"21": 7}
QUARTERS = (0, 90, 180, 270)


def parameters(macro: Macro) -> Set[int]:
    """The parameters that stand in a rotation's place in some of its words, or nothing where a word gives one a
    value."""
    found = set()
    for _, _, word in macro.words[1:]:
        if word.startswith(b"$"):
            return set()
        parts = word.split(b",")
        match = PARAMETER.fullmatch(parts[-1])
        if match and parts[0] in ROTATED and ROTATED[parts[0]] in (None, len(parts)):
            found.add(int(match[1]))
    return found


def quarter(aperture: Aperture, parameter: int) -> Optional[int]:
    """What an aperture says for a parameter as a quarter turn of 0 to 270, or None."""
    parts = aperture.parts.split(b"X") if aperture.parts else []
    text = parts[parameter - 1] if parameter <= len(parts) else b"0"
    if not re.fullmatch(DECIMAL, text):
        return None
    # A decimal's own arithmetic rounds to 28 digits.
    value = Fraction(Decimal(text.decode())) % 360
    return int(value) if value in QUARTERS else None


def body(macro: Macro, values: Dict[int, int]) -> Iterator[bytes]:
    """The macro's words behind its name, with the values in the rotations' place."""
    for _, _, word in macro.words[1:]:
        *parts, last = word.split(b",")
        match = PARAMETER.fullmatch(last)
        is_rotation = (
            match
            and int(match[1]) in values
            and parts
            and parts[0] in ROTATED
            and ROTATED[parts[0]] in (None, len(parts) + 1)
        )
        yield b",".join([*parts, b"%d" % values[int(match[1])]]) if is_rotation else word


def rewrite(edits: Edits, left: List[Tuple[Macro, List[Aperture]]], names: Set[bytes]) -> None:
    """Each macro that is left with its apertures: the first value in its place, a macro of its own for each other
    one."""
    for macro, having in left:
        turned = parameters(macro)
        told = [{parameter: quarter(it, parameter) for parameter in turned} for it in having]
        if not turned or any(value is None for values in told for value in values.values()):
            continue
        made, start = {}, macro.words[0][0]
        for it, values in zip(having, told):
            key = tuple(sorted(values.items()))
            if key not in made:
                made[key] = macro.name if not made else fresh(macro.name, names)
                write(edits, macro, values, made[key])
            if made[key] != macro.name:
                edits.edits[it.start] = it.end, b"ADD%d%s" % (it.number, made[key]) + (
                    b"," + it.parts if it.parts is not None else b""
                )
        more = (len(made) - 1) * len(macro.words)
        edits.note(
            start,
            macro.words[0][1],
            TURN,
            more
            and "has a rotation by its apertures' parameters: written by their values, "
            f"{more} more commands stand before the next"
            or "",
        )


def write(edits: Edits, macro: Macro, values: Dict[int, int], name: bytes) -> None:
    written = list(body(macro, values))
    if name == macro.name:
        for (start, end, _), word in zip(macro.words[1:], written):
            edits.edits[start] = end, word
        return
    text = b"%AM" + name + b"*" + b"".join(word + b"*" for word in written) + b"%"
    edits.insert(edits.data.rfind(b"%", 0, macro.words[0][0]), text)


def fresh(name: bytes, names: Set[bytes]) -> bytes:
    """A name that no macro has."""
    number = 1
    while b"%s_%d" % (name, number) in names:
        number += 1
    names.add(b"%s_%d" % (name, number))
    return b"%s_%d" % (name, number)
