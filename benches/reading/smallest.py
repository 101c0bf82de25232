"""Makes a file smaller as long as something holds of it: words of a copper file, lines of a drill file go."""
import re
from typing import Callable, List

MOST_TRIALS = 200
WORD = re.compile(rb"%[^%]*%|[^*%]*\*|[^*%]+")


def parts_of(data: bytes, kind: str) -> List[bytes]:
    """The words of a copper file, extended ones with their pair; the lines of a drill file."""
    return [word.strip() for word in WORD.findall(data) if word.strip()] if kind == "copper" else data.splitlines()


def joined(parts: List[bytes]) -> bytes:
    return b"".join(part + b"\n" for part in parts)


def smallest(parts: List[bytes], holds: Callable[[List[bytes]], bool], most: int = MOST_TRIALS) -> List[bytes]:
    """Fewer parts of which it still holds; none of them can go alone, unless the trials are used up."""
    size = max(1, len(parts) // 2)
    while True:
        at, went = 0, False
        while at < len(parts) and most > 0:
            fewer, most = parts[:at] + parts[at + size :], most - 1
            if fewer and holds(fewer):
                parts, went = fewer, True
            else:
                at += size
        if most <= 0 or size == 1 and not went:
            return parts
        size = size if went and size == 1 else max(1, size // 2)
