"""What KLayout's importer of PCB files reads: states of places, places near borders, what is left of two areas."""
import json
import os
import re
import tempfile
from math import isqrt
from typing import Dict, List, NamedTuple, Tuple

from .others import States, Told, put, run, version

SIDE = os.path.join(os.path.dirname(os.path.abspath(__file__)), "klayout_side.py")
MOST_BORDERS = 20_000
# Corners of a full circle that flashes have; fewer in files of many.
CIRCLE, COARSE, LARGE = 256, 96, 1_500_000
# Arcs have 32 chords to a circle, whatever is asked: these lie within the arc by 49 of 10,000 of its radius.
SAG = (49, 10_000)
# How many tolerances a place has to be from a border where it differs at first sight.
WIDER = 4
MICROMETRE, MILLIMETRE, INCH = 1_000, 1_000_000, 25_400_000
OFFSET = re.compile(rb"I([+-]?\d+)(?:J([+-]?\d+))?|J([+-]?\d+)")


class Left(NamedTuple):
    """What one of two files has alone, but for the tolerance: parts, square nanometres, and boxes of some."""

    parts: int
    area: int
    boxes: List[List[int]]


class Looked(NamedTuple):
    """States of places and messages; places near KLayout's borders; what is left of the pairs."""

    told: Told
    borders: List[Tuple[int, int]]
    left: List[Left]


class Task(NamedTuple):
    """What is asked of files of a kind; states and borders are of the first, whose tolerance counts, times `wider`."""

    files: Dict[str, bytes]
    kind: str
    places: List[Tuple[int, int]]
    pairs: List[Tuple[str, str, bool]] = []
    borders: int = 0
    seed: int = 1
    wider: int = 1

    def put(self, folder: str) -> dict:
        """The task as the side script reads it."""
        of, data = next(iter(self.files.items()))
        least, end = tolerance(data) * self.wider, ".gbr" if self.kind == "copper" else ".drl"
        steps = [2, 3, 5, 20, 60] if least < 3 * MICROMETRE else [2 * least // MICROMETRE, 4 * least // MICROMETRE]
        os.mkdir(folder)
        files = {name: put(folder, name + end, text) for name, text in self.files.items()}
        circle, borders = CIRCLE if len(data) < LARGE else COARSE, min(self.borders, MOST_BORDERS)
        return {
            "files": files,
            "of": of,
            "circle": circle,
            "tolerance": least,
            "places": self.places,
            "pairs": self.pairs,
            "borders": borders,
            "steps": steps,
            "seed": self.seed,
        }


def tolerance(data: bytes) -> int:
    """Nanometres: a micrometre, and how far chords lie off the longest arc of the file."""
    digits, most = re.search(rb"%FS[^*]*?X\d(\d)", data), 0
    if digits and re.search(rb"G0?[23]", data):
        for told in OFFSET.finditer(data):
            x, y = int(told[1] or 0), int(told[2] or told[3] or 0)
            most = max(most, x * x + y * y)
        unit = INCH if re.search(rb"MOIN|G70\*", data) else MILLIMETRE
        most = (isqrt(most) + 1) * unit // 10 ** int(digits[1]) if most else 0
    return MICROMETRE + most * SAG[0] // SAG[1]


class KLayout:
    name, needs = "KLayout", "klayout"
    has_areas = True

    def __init__(self):
        self.version = version("klayout", "klayout")

    @property
    def is_there(self) -> bool:
        return bool(self.version)

    @property
    def tolerance(self) -> str:
        return f"1 um, with arcs 0.0049 of the longest radius more, for 32 chords; of what differs {WIDER} times that"

    def looked(self, tasks: List[Task]) -> List[Looked]:
        """The answers to tasks, by one run: KLayout takes seconds to begin."""
        with tempfile.TemporaryDirectory() as folder:
            given = [task.put(os.path.join(folder, str(number))) for number, task in enumerate(tasks)]
            path, out = put(folder, "tasks.json", json.dumps(given).encode()), os.path.join(folder, "answers.json")
            said = run(["klayout", "-b", "-rd", f"tasks={path}", "-rd", f"answers={out}", "-r", SIDE], folder)
            if os.path.exists(out):
                with open(out, encoding="utf-8") as file:
                    return [looked_of(told) for told in json.load(file)]
        if len(tasks) == 1:
            return [Looked(Told(None, "; ".join(said_of(said)) or "no answer"), [], [])]
        half = len(tasks) // 2
        return self.looked(tasks[:half]) + self.looked(tasks[half:])

    def states(self, data: bytes, kind: str, places: List[Tuple[int, int]]) -> Told:
        return self.looked([Task({"f": data}, kind, places)])[0].told

    def again(self, data: bytes, kind: str, places: List[Tuple[int, int]]) -> States:
        """Places looked at with a wider square: in a sharp corner borders are further apart than chords and arcs."""
        return self.looked([Task({"f": data}, kind, places, wider=WIDER)])[0].told.states


def looked_of(told: dict) -> Looked:
    states = Told(told.get("states"), "; ".join(told["errors"].values()))
    return Looked(states, [tuple(it) for it in told.get("borders", [])], [Left(**it) for it in told["left"]])


def said_of(text: str) -> List[str]:
    """KLayout's messages without places."""
    rows = [re.sub(r"in line.*|\(file.*", "", row).strip() for row in text.split("\n")]
    return [row for row in rows if row]
