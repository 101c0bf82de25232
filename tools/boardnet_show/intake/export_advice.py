"""What to export otherwise where a file is refused, in words of the tool that wrote it, where the file says which it
is."""
from typing import Callable, Optional

from boardnet_show.base.refusals import Advice, Refusal

from .cad_tools import tool_of, way

NEWLINE = b"\n"


def way_out(refusal: Optional[Refusal], read: Callable[[str], bytes]) -> Advice:
    """What is to be said behind a refusal."""
    if not refusal or refusal.byte is None:
        return Advice(0, "")
    data = read(refusal.file)
    line = data.count(NEWLINE, 0, refusal.byte) + 1 if refusal.unit == "command" else 0
    return Advice(line, way(refusal.kind, tool_of(data)))
