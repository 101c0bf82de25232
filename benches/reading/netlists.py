"""Netlists that tools write, read back: each record once by boardnet, and each pad of the copper named once.

Records are read here by their columns alone, and the pads of copper by their attributes; no code is shared with what is
compared.
"""
import json
import os
import re
from collections import Counter
from typing import Dict, Iterator, List, NamedTuple, Tuple

from .ours import command

RECORD = re.compile(r"3[12]7(.{14}).{3}(.{6})(.)(.{4}).{7}A(\d\d)X([-+ ]\d{6})Y([-+ ]\d{6})")
UNITS = {"CUST 0": 25_400, "CUST 1": 10_000}
POINT = re.compile(r"^point (\d+) (\d+) (\d+) (\d+) (\S+)$", re.M)
SPOT = re.compile(r"^spot (\d+) (-?\d+) (-?\d+)$", re.M)
PAD = re.compile(r"%TO\.P,([^*%]*)\*%|%TD[^*%]*\*%|%TO\.N,([^*%]*)\*%|(D03)\*")


class Record(NamedTuple):
    """Columns of a test record: net, component and pin, access, and place in u."""

    net: str
    pin: str
    access: int
    place: Tuple[int, int]


def records_of(text: str) -> List[Record]:
    unit = UNITS[re.search(r"^P +UNITS +(CUST [01])", text, re.M)[1]]
    rows = [RECORD.match(line) for line in text.splitlines()]
    pin = lambda row: f"{row[2].strip()}-{row[4].strip()}"
    place = lambda row: (int(row[6]) * unit, int(row[7]) * unit)
    return [Record(row[1].strip(), pin(row), int(row[5]), place(row)) for row in rows if row]


def pads_of(text: str) -> Counter:
    """The flashes of each component and pin, by its attribute."""
    found, pin = Counter(), ""
    for told in PAD.finditer(text):
        if told[3]:
            found.update([pin] if pin else [])
        elif told[1] is not None:
            pin = "-".join(told[1].split(",")[:2])
        elif told[0].startswith("%TD"):
            pin = ""
    return found


def packages(paths: List[str]) -> Iterator[str]:
    """The folders below that have a manifest."""
    for path in paths:
        for folder, folders, names in os.walk(path):
            folders.sort()
            if "m.json" in names:
                yield folder


def compared(folder: str, program: str) -> Dict[str, object]:
    """Counts of a package: records, points of the report that are not theirs, pads by their names."""
    with open(os.path.join(folder, "m.json"), encoding="utf-8") as file:
        manifest = json.load(file)
    texts = {}
    for name in [manifest["netlist"], *manifest["copper"]]:
        with open(os.path.join(folder, name), encoding="latin-1") as file:
            texts[name] = file.read()
    records = records_of(texts[manifest["netlist"]])
    done = command([program, "check", "m.json"], folder)
    told = {"records": len(records), "line": done.line}
    if done.status in (0, 1):
        told["points amiss"] = amiss(records, done.out.decode(), len(manifest["copper"]))
    if any(record.pin != "-" for record in records):
        told.update(pads(records, [texts[name] for name in manifest["copper"]]))
    return told


def pads(records: List[Record], layers: List[str]) -> Dict[str, int]:
    """How often the records name each pad: one that has more flashes on a layer has as many records."""
    named, flashes = Counter(record.pin for record in records), [pads_of(text) for text in layers]
    most = {pin: max(it[pin] for it in flashes) for it in flashes for pin in it}
    unnamed, more = sum(not named[pin] for pin in most), sum(named[pin] > most[pin] for pin in most)
    return {"pads": len(most), "pads without a record": unnamed, "pads with more records than flashes": more}


def amiss(records: List[Record], report: str, layers: int) -> int:
    """Records that are not just the points of the report that they ask for: layers by the access, and the place."""
    spots = {int(told[1]): (int(told[2]), int(told[3])) for told in SPOT.finditer(report)}
    points: Dict[int, set] = {}
    for told in POINT.finditer(report):
        points.setdefault(int(told[2]), set()).add((int(told[3]), spots[int(told[1])]))
    asked = lambda record: {1, layers} if record.access == 0 else {record.access}
    wanted = [{(layer, record.place) for layer in asked(record)} for record in records]
    other = sum(points.get(number, set()) != it for number, it in enumerate(wanted, 1))
    return other + max(0, len(points) - len(records))
