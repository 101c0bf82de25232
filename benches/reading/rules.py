"""The small files, one rule each, in small_files/*.txt; and whether boardnet reads each as its own column says.

A rule is a line `name | section | what it has`; the file's lines, parted by blanks (`MM` is the usual format and unit,
`<x,y>` a coordinate in millimetres, `~` a blank), or a Python literal; and a line `at x,y .. | says .. | reads ..`.
These are places in millimetres; what the specification says of each: 1 copper, 0 none, ? nothing; and boardnet's own
column: how it takes the file, of each place 1, 0 or, where its bounds differ, ?, and the kind by which `check` refuses.
"""
import ast
import os
import re
from decimal import Decimal
from typing import Iterator, List, NamedTuple, Optional

from .ours import Ours, Place

FOLDER = os.path.join(os.path.dirname(os.path.abspath(__file__)), "small_files")
MILLIMETRES = "%FSLAX46Y46*%\n%MOMM*%"
SPOT = re.compile(r"<(-?[\d.]+),(-?[\d.]+)>")
DRILLS = "drills"


class Rule(NamedTuple):
    name: str
    kind: str
    section: str
    has: str
    data: bytes
    places: List[Place]
    says: str
    reads: str


def whole(decimal: str, places: int) -> int:
    """A decimal times a power of ten, which is whole."""
    found = Decimal(decimal).scaleb(places)
    if found != int(found):
        raise ValueError(f"{decimal} has more than {places} decimals")
    return int(found)


def written(spelled: str) -> bytes:
    """The file that a rule spells."""
    if spelled.startswith("'"):
        return ast.literal_eval(spelled).encode("utf-8")
    lines = [MILLIMETRES if word == "MM" else word.replace("~", " ") for word in spelled.split()]
    spots = lambda told: f"X{whole(told[1], 6)}Y{whole(told[2], 6)}"
    return ("\n".join(SPOT.sub(spots, line) for line in lines) + "\n").encode("utf-8")


def rule_of(paragraph: str, kind: str) -> Rule:
    head, *body, end = paragraph.strip().split("\n")
    name, section, has = head.split(" | ")
    at, says, reads = (part.strip().split(" ", 1)[1] for part in end.split(" | "))
    places = [tuple(whole(v, 3) for v in spot.split(",")) for spot in at.split()]
    if len(says) != len(places):
        raise ValueError(f"{name}: {len(places)} places, {says}")
    return Rule(name, kind, section, has, written(" ".join(line.strip() for line in body)), places, says, reads)


def rules() -> Iterator[Rule]:
    """All rules, by subject and in the order of the files."""
    for name in sorted(os.listdir(FOLDER)):
        with open(os.path.join(FOLDER, name), encoding="utf-8") as file:
            paragraphs = file.read().split("\n\n")
        kind = "drill" if name == f"{DRILLS}.txt" else "copper"
        yield from (rule_of(paragraph, kind) for paragraph in paragraphs if paragraph.strip())


def column(ours: Ours, rule: Rule) -> str:
    """What boardnet reads, in the words of its column."""
    reading = ours.reading(rule.data, rule.kind)
    if not reading.below:
        return f"refused - {reading.why}"
    bounds = ours.states(reading, rule.kind, rule.places)
    states = "".join("?" if below != above else str(below) for below, above in bounds)
    return f"{reading.how} {states} {reading.why}".rstrip()


def is_otherwise(says: str, states: Optional[str]) -> bool:
    """Whether states are none of what the specification says; ? and b are open."""
    return bool(states) and any({a, b} == {"0", "1"} for a, b in zip(says, states))
