"""What gerbv reads: the states of places by the pixels of its picture, without smoothing."""
import os
import re
import subprocess
import tempfile
from typing import List, NamedTuple, Tuple

from . import BARE, COPPER, NEAR
from .others import States, Told, put, python_with_pictures, run, version

SIDE = os.path.join(os.path.dirname(os.path.abspath(__file__)), "picture_side.py")
STATES = {"1": COPPER, "0": BARE, "b": NEAR, "-": None}
INCH, MARGIN, REACH = 25_400, 500, 2
# Micrometres a pixel: the first with which the longer side has at most so many.
PITCHES, MOST = (10, 20, 50, 100, 200), 10_000
# What gerbv says of each file, of attributes and with times.
IDLE = re.compile(r"\*\* \(process:\d+\): |\d\d:\d\d:\d\d\.\d+: |in file .*| at line \d+")


class View(NamedTuple):
    """The lower left corner, micrometres a pixel, and the pixels along x and y."""

    left: int
    low: int
    pitch: int
    wide: int
    high: int

    def pixel(self, place: Tuple[int, int]) -> Tuple[int, int]:
        return (place[0] - self.left) // self.pitch, (place[1] - self.low) // self.pitch


def view_of(places: List[Tuple[int, int]], pitch: int = 0) -> View:
    """A view of all these places with room around them."""
    xs, ys = zip(*places)
    longer = max(max(xs) - min(xs), max(ys) - min(ys)) + 2 * MARGIN
    pitch = pitch or next((it for it in PITCHES if longer <= it * MOST), PITCHES[-1])
    left, low = ((min(vs) - MARGIN) // pitch * pitch for vs in (xs, ys))
    return View(left, low, pitch, (max(xs) + MARGIN - left) // pitch + 1, (max(ys) + MARGIN - low) // pitch + 1)


def inches(value: int, per: int = INCH, digits: int = 6) -> str:
    """A length as a decimal of inches, of which one has so many, rounded down; gerbv takes no more digits."""
    told = abs(value) * 10**digits // per
    return f"{'-' if value < 0 else ''}{told // 10 ** digits}.{told % 10 ** digits:0{digits}d}"


def words_of(view: View, out: str, path: str) -> List[str]:
    # A fifth of a pixel more, so that the count of pixels is not one less by rounding.
    size = "x".join(inches((5 * n + 1) * view.pitch, 5 * INCH) for n in (view.wide, view.high))
    colours = ["-B", "0", "-b", "#000000", "-f", "#FFFFFFFF"]
    return [
        "gerbv",
        "-x",
        "png",
        "-D",
        inches(INCH * INCH // view.pitch),
        *colours,
        "-O",
        f"{inches(view.left)};{inches(view.low)}",
        "-W",
        size,
        "-o",
        out,
        path,
    ]


class Gerbv:
    name, needs = "gerbv", "gerbv and python3-pil"
    has_areas = False

    def __init__(self):
        self.version, self.python = version("gerbv", "gerbv"), python_with_pictures()

    @property
    def is_there(self) -> bool:
        return bool(self.version and self.python)

    @property
    def tolerance(self) -> str:
        return f"{REACH} pixels of {PITCHES[0]} um, of views over 100 mm up to {PITCHES[-1]}; of what differs 1 um"

    def states(self, data: bytes, kind: str, places: List[Tuple[int, int]], pitch: int = 0) -> Told:
        view = view_of(places, pitch)
        with tempfile.TemporaryDirectory() as folder:
            path = put(folder, "f.gbr" if kind == "copper" else "f.drl", data)
            out = os.path.join(folder, "f.png")
            said = said_of(run(words_of(view, out, path), folder))
            if not os.path.exists(out):
                return Told(None, said)
            asked = "".join("%d %d\n" % view.pixel(place) for place in places)
            words = [self.python, SIDE, out, str(REACH)]
            done = subprocess.run(words, input=asked.encode(), stdout=subprocess.PIPE, check=True)
        return Told([STATES[it] for it in done.stdout.decode().strip()], said)

    def again(self, data: bytes, kind: str, places: List[Tuple[int, int]]) -> States:
        """Places looked at with one micrometre a pixel, each by itself."""
        told = [self.states(data, kind, [place], 1).states for place in places]
        return None if None in told else [states[0] for states in told]


def said_of(text: str) -> str:
    """gerbv's messages, each once, without those of attributes."""
    rows = [row for row in text.split("\n") if not re.search(r"extension found %T[FAOD]%", row)]
    told = [IDLE.sub("", row).strip() for row in rows]
    return "; ".join(dict.fromkeys(row for row in told if row))
