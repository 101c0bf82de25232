"""Faults planted in the reading rules: boardnet is handed a file that says what the faulty rule would read in the true
one.

The others read the true one, so the bench has to see each: by the rules' own columns, and by places of random files.
"""
import re
from decimal import Decimal
from typing import Callable, Dict


def doubled(told) -> bytes:
    """Twice the diameter: what a reader has who takes it for the radius."""
    return told[1] + str(Decimal(told[2].decode()) * 2).encode()


def radius_for_diameter(data: bytes, kind: str) -> bytes:
    if kind == "copper":
        return re.sub(rb"(%ADD\d+C,)([\d.]+)", doubled, data)
    return re.sub(rb"(^T\d+[^\n;C]*C)([\d.]+)", doubled, data, flags=re.M)


def other_way(data: bytes, kind: str) -> bytes:
    """Arcs turn the other way, and so do figures of macros."""
    if kind == "drill":
        return data
    other = {b"2": b"3", b"3": b"2"}
    arcs = re.sub(rb"(?<![\w.])G(0?)([23])(?=[XYIJD*])", lambda told: b"G" + told[1] + other[told[2]], data)
    turned = lambda told: told[1] + (told[2][1:] if told[2].startswith(b"-") else b"-" + told[2])
    return re.sub(rb"(\*\s*(?:4|5|20|21|22|7),[^*%]*,)(-?[\d.]+)(?=\*)", turned, arcs)


def ends_of_obrounds(data: bytes, kind: str) -> bytes:
    """Obrounds end flat, as rectangles do, and so do slots of drills: they end at their middles."""
    if kind == "copper":
        return re.sub(rb"(%ADD\d+)O,", rb"\1R,", data)
    return re.sub(rb"^((?:[XY][-+.\d]+)+)G85(?:[XY][-+.\d]+)+", rb"\1", data, flags=re.M)


PLANTS: Dict[str, Callable[[bytes, str], bytes]] = {
    "radius": radius_for_diameter,
    "turn": other_way,
    "obround": ends_of_obrounds,
}
