"""Whether the program says of the very files that came what it says of the copies that were judged.

`show` judges copies of files: mended, flattened, between bounds. The command `between` reads the files as they came,
and takes the copies as boards between which the board lies only where each piece stands for what it read, and where
names, points and layers are the same. So its answer is about the bytes that the user has. A file that it does not read
stands as its copy, and is told.
"""
import copy
import os
from typing import Dict, List, NamedTuple, Sequence, Tuple

from boardnet_show.base.statuses import REFUSED
from boardnet_show.formats.manifest import Manifest
from boardnet_show.formats.report import Report
from boardnet_show.intake.mends.table import CONTOUR
from boardnet_show.intake.package import Package, beside

from .answers import AskedOn, OfFiles
from .program import Answer, Program

FIRST_LINE = "boardnet-bounds 1\n"


class Side(NamedTuple):
    """A judged board, and the names of those of its files that are not the user's."""

    word: str
    package: Package
    copies: Sequence[str]


class Asked(NamedTuple):
    """What `between` answers, which of the files that have copies it has read as they came and which as copies, and on
    what."""

    answer: Answer
    read: Tuple[str, ...]
    copies: Tuple[str, ...]
    asked_on: AskedOn

    def of_files(self, is_proved: bool) -> OfFiles:
        return OfFiles(is_proved, self.read, self.copies, "" if is_proved else self.answer.line, self.asked_on)


def named_anew(manifest: Manifest, names: Dict[str, str]) -> Manifest:
    """A manifest that names other files in the same places."""
    told = copy.copy(manifest)
    told.copper = [names.get(name, name) for name in manifest.copper]
    told.drills = [(names.get(name, name), first, last) for name, first, last in manifest.drills]
    told.netlist = names.get(manifest.netlist, manifest.netlist)
    return told


def with_side(real: Package, side: Side) -> str:
    """The name of the manifest of a judged board among the files of the board, with links to those that it has of its
    own."""
    names = {}
    for name in side.copies:
        names[name] = real.free_name(side.word, os.path.splitext(name)[1])
        real.link(names[name], side.package.path(name))
    name = real.free_name(side.word, ".json")
    real.put(name, named_anew(side.package.manifest, names).json_text().encode())
    return name


def ask(program: Program, package: Package, sides: Sequence[Side], counts: str, declared: Sequence[str] = ()) -> Asked:
    """What `between` answers on the files as they came. `declared` are those that a declaration changes, which stand as
    they are judged, as does each that it does not read otherwise."""
    its = package.rewritten()
    # A contour over its limit is refused behind all words before it, in each of many files anew.
    unread = {it.file for it in package.mends if it.kind == CONTOUR}
    own = [name for name in its if name not in unread.union(declared)]
    while True:
        real = package.as_it_came(beside(package, "came"), own)
        words = [with_side(real, side) for side in sides]
        words = [words[0], words[-1], real.free_name("counts", ".txt")]
        real.put(words[-1], (FIRST_LINE + counts).encode())
        answer = program.between(real, *words)
        refused = answer.refusal.file if answer.status == REFUSED and answer.refusal else ""
        if refused not in own:
            break
        own.remove(refused)
    text = real.free_name("between", ".txt")
    real.put(text, answer.out)
    copies = tuple(name for name in its if name not in own)
    return Asked(answer, tuple(own), copies, AskedOn(real.folder, (real.name, *words), text))


def each_as_itself(report: Report) -> str:
    """The counts where each piece stands for itself."""
    return "1 1\n" * len(report.sources)
