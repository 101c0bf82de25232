"""What the copper files say of themselves: each file as it came, whatever has been done to it, also by comments.

`check` judges the attributes that it reads. It comes to none where a macro stands before them, `flatten` drops them,
and those in comments are passed over: so they are judged here, by the rule that `check` has.
"""
import re
from typing import List, Optional, Tuple

from boardnet_show.base.refusals import GERBER, WRONG_LAYER, Refusal
from boardnet_show.formats import gerber_attributes

LAYER = re.compile(rb"Copper,L([1-9][0-9]?)")
# Numbers and names of two kinds of refusal.
WRONG, NEGATIVE = (25, WRONG_LAYER), (26, "NegativeFile")


def came(package, name: str) -> bytes:
    """A file as it was before `flatten` rewrote it; none where it cannot be read, which `check` says."""
    try:
        return package.before[name] if name in package.before else package.read(name)
    except OSError:
        return b""


def refusal(name: str, data: bytes, kind: Tuple[int, str], attribute: gerber_attributes.Attribute) -> Refusal:
    """The refusal of a file by one of its attributes, as `check` has it."""
    return Refusal(
        name, GERBER, *kind, "command", data.count(b"*", 0, attribute.start) + 1, attribute.start, attribute.is_comment
    )


def amiss(package) -> Optional[Refusal]:
    """The refusal of the first copper file that says that it is no layer of its place, else of the first that says that
    it is negative; None where none does. The layers come first: where a file is negative, the board is judged by copies
    that have no comments."""
    negative = None
    for place, name in enumerate(package.manifest.copper if package.manifest else (), 1):
        data, wanted = came(package, name), [b"Copper", b"L%d" % place]
        wrong = [it for it in gerber_attributes.functions(data) if it.fields[1:3] != wanted]
        if wrong:
            return refusal(name, data, WRONG, wrong[0])
        said = gerber_attributes.negatives(data)
        if said and not negative:
            negative = refusal(name, data, NEGATIVE, said[0])
    return negative


def layers(package) -> List[int]:
    """The number of the layer that each copper file says it is, 0 where it says none or several."""
    told = []
    for name in package.manifest.copper:
        said = {tuple(it.fields[1:3]) for it in gerber_attributes.functions(came(package, name))}
        found = LAYER.fullmatch(b",".join(said.pop())) if len(said) == 1 else None
        told.append(int(found[1]) if found else 0)
    return told
