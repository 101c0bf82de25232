"""What boardnet reads in a copper or drill file, asked by commands: the program's `check` and `flatten`, and `show`."""
import json
import os
import re
import subprocess
import sys
import tempfile
from typing import Dict, Iterable, List, NamedTuple, Optional, Tuple

from . import BARE, COPPER, TOP, sides_of
from .plants import PLANTS

SHOW = os.path.join(TOP, "tools", "show")
EMPTY = b"%FSLAX46Y46*%\n%MOMM*%\nM02*\n"
# Which layer a file says it is of, and which holes are plated, has no say in where copper and holes are.
COPPER_LAYER = re.compile(rb"%TF\.FileFunction[^*%]*\*%")
PLATING = re.compile(rb"^; ?#@! T[FA]\.(?:File|Aper)Function[^\n]*$|^;TYPE=[^\n]*$", re.M)
POINT = re.compile(rb"^point \d+ \d+ \d+ \d+ (\d+|-)$", re.M)
# A netlist may have 200,000 records.
MOST_POINTS = 190_000
SECONDS = 300
Place = Tuple[int, int]
Bounds = List[Tuple[int, int]]


class Answer(NamedTuple):
    """A command's status, text and line; LATE where it took too long."""

    status: int
    out: bytes
    line: str


LATE = Answer(-1, b"", "too long")


class Reading(NamedTuple):
    """How boardnet takes a file, a word of HOWS; the kind of what `check` refuses; what it takes below and above."""

    how: str
    why: str
    below: bytes = b""
    above: bytes = b""


HOWS = ("exact", "flattened", "mended", "between", "refused")


def netlist(places: Iterable[Place]) -> bytes:
    """A netlist that asks of each place whether it lies on copper of layer 1."""
    sign = lambda v: b"%s%06d" % (b"-" if v < 0 else b"+", abs(v))
    rows = [b"327%-14s%-21sA01X%sY%s" % (b"N/C", b"", sign(x), sign(y)) for x, y in places]
    return b"\n".join([b"P  UNITS CUST 1", *rows, b"999", b""])


def command(words: List[str], folder: str, seconds: int = SECONDS, **more: str) -> Answer:
    """Runs a command in a folder."""
    how = {"cwd": folder, "env": {**os.environ, **more}, "timeout": seconds, "check": False}
    try:
        done = subprocess.run(words, stdin=subprocess.DEVNULL, stdout=subprocess.PIPE, stderr=subprocess.PIPE, **how)
    except subprocess.TimeoutExpired:
        return LATE
    return Answer(done.returncode, done.stdout, done.stderr.decode("utf-8", "replace").strip().split("\n")[0])


def kind_of(line: str) -> str:
    """The name of a refusal's kind, as `Macro` of `boardnet: c.gbr: Gerber 12 Macro at command 3, byte 27`."""
    told = re.search(r": (?:Gerber|drill|flatten) \d+ (\w+) at ", line)
    return told[1] if told else line


class Ours:
    """boardnet, of one program; a plant of PLANTS distorts what it is handed, for a trial of this bench."""

    def __init__(self, program: str, plant: str = ""):
        self.program, self.plant = os.path.abspath(program), plant

    def in_folder(self, words: List[str], files: Dict[str, bytes], places: Iterable[Place] = (), then=None):
        """What a command says of a board of these files; `then` is asked of the folder too."""
        with tempfile.TemporaryDirectory() as folder:
            drills = [{"file": name, "from": 1, "to": 1} for name in files if name.endswith(".drl")]
            manifest = {"copper": ["c.gbr"], "drills": drills, "netlist": "n.ipc"}
            more = {"n.ipc": netlist(places), "m.json": json.dumps(manifest).encode()}
            for name, data in {"c.gbr": EMPTY, **files, **more}.items():
                with open(os.path.join(folder, name), "wb") as file:
                    file.write(data)
            answer = command(words, folder, BOARDNET=self.program)
            return (answer, then(folder)) if then else answer

    def check(self, data: bytes, kind: str, places: Iterable[Place] = ()) -> Answer:
        return self.in_folder([self.program, "check", "m.json"], {name_of(kind): data}, places)

    def flattened(self, data: bytes) -> Optional[bytes]:
        """The normal form of a copper file: circles, straight draws and regions."""
        answer = self.in_folder([self.program, "flatten", "c.gbr"], {"c.gbr": data})
        return answer.out if answer.status == 0 else None

    def mended(self, data: bytes, kind: str) -> bytes:
        """A file as `show` mends it, or as it is."""
        name = name_of(kind)

        def kept(folder):
            path = os.path.join(folder, "kept", name)
            if not os.path.exists(path):
                return data
            with open(path, "rb") as file:
                return file.read()

        # One place: without any there is nothing to judge.
        return self.in_folder([sys.executable, SHOW, "m.json", "--keep", "kept"], {name: data}, [(0, 0)], kept)[1]

    def given(self, data: bytes, kind: str) -> bytes:
        """What the program is handed of a file."""
        data = plain(data, kind)
        return PLANTS[self.plant](data, kind) if self.plant else data

    def reading(self, data: bytes, kind: str) -> Reading:
        """How a file is taken."""
        data = self.given(data, kind)
        answer = self.check(data, kind)
        if answer.status in (0, 1):
            return Reading("exact", "", data, data)
        why = kind_of(answer.line)
        return self.flat("flattened", why, data, kind) or self.seldom(why, data, kind)

    def flat(self, how: str, why: str, data: bytes, kind: str) -> Optional[Reading]:
        flat = self.flattened(data) if kind == "copper" else None
        return Reading(how, why, flat, flat) if flat and self.check(flat, kind).status in (0, 1) else None

    def seldom(self, why: str, data: bytes, kind: str) -> Reading:
        """A file that `check` and `flatten` refuse: a mended copy, or two bounds of it."""
        copy = self.mended(data, kind)
        if copy != data:
            if self.check(copy, kind).status in (0, 1):
                return Reading("mended", why, copy, copy)
            found = self.flat("mended", why, copy, kind)
            if found:
                return found
        sides = sides_of(copy) if kind == "copper" else None
        if sides and all(self.check(side, kind).status in (0, 1) for side in sides):
            return Reading("between", why, *sides)
        return Reading("refused", why)

    def states_of(self, data: bytes, kind: str, places: List[Place]) -> List[int]:
        found: List[int] = []
        for first in range(0, len(places), MOST_POINTS):
            some = places[first : first + MOST_POINTS]
            answer = self.check(data, kind, some)
            told = POINT.findall(answer.out)
            if len(told) != len(some):
                raise ValueError(f"{len(told)} answers to {len(some)} places: {answer.line}")
            found += [BARE if net == b"-" else COPPER for net in told]
        return found

    def states(self, reading: Reading, kind: str, places: List[Place]) -> Bounds:
        """Of each place what the lower and the upper file say."""
        below = self.states_of(reading.below, kind, places)
        is_one = reading.above is reading.below
        return list(zip(below, below if is_one else self.states_of(reading.above, kind, places)))

    def bounds_at(self, data: bytes, kind: str, place: Place, is_exact: bool) -> Optional[Tuple[int, int]]:
        """What a file has at one place, or None where it is refused; of an exact one by one command."""
        if is_exact:
            answer = self.check(self.given(data, kind), kind, [place])
            told = POINT.search(answer.out)
            return ((COPPER, BARE)[told[1] == b"-"],) * 2 if told else None
        reading = self.reading(data, kind)
        return self.states(reading, kind, [place])[0] if reading.below else None


def name_of(kind: str) -> str:
    return "c.gbr" if kind == "copper" else "d.drl"


def plain(data: bytes, kind: str) -> bytes:
    """A file without what it says of its layer and its plating."""
    return COPPER_LAYER.sub(b"%TF.Part,Other*%", data) if kind == "copper" else PLATING.sub(b";", data)
