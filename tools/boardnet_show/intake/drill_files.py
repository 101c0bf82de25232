"""Drill files: plated or not, and the layers that their holes span."""
import re

from boardnet_show.formats.drills.drill_plating import Plating, in_both_ways, unplated_hole

from .file_names import Refused, shown

UNPLATED_NAME = re.compile(r"npth|non?[._ -]?plated|un[._ -]?plated", re.I)
PLATED_NAME = re.compile(r"pth|plated|(?:^|[._ -])via", re.I)
APART = (
    "write plated and unplated holes to files of their own (KiCad: Generate Drill Files, 'PTH and NPTH in single file'"
    " off; kicad-cli: --excellon-separate-th), or the unplated ones would join layers"
)


class Drills:
    """A drill file of plated holes: its span, nothing where it is all layers, and why it is taken so (nothing where it
    says so)."""

    def __init__(self, name, span, why=""):
        self.name, self.span, self.why = name, span, why


def need_told(name, data, said):
    """Refuses a file of both kinds of holes where it does not say of each tool which it is; else `show` takes the
    plated ones alone."""
    plating = Plating(data)
    if not plating.is_told():
        unsaid = "".join(f", and does not say which T{number} is" for number in plating.unsaid()[:1])
        raise Refused(f"{name} {said}{unsaid}: {APART}")


def of_attribute(name, function, data):
    """What the attribute says: a file of plated holes, or a reason to leave it out."""
    fields = function.strip().split(",")
    if fields[0] == "MixedPlating":
        need_told(name, data, "mixes plated and unplated holes")
        fields[0] = "Plated"
    if fields[0] == "NonPlated":
        return None, "its holes are not plated, so they join nothing"
    if fields[0] != "Plated":
        return None, f"its function is {function}"
    if len(fields) < 3 or not all(re.fullmatch("[0-9]{1,9}", field) for field in fields[1:3]):
        raise Refused(
            f"{name} says that its holes are plated and not which layers they span: its comment is to be `; #@!"
            " TF.FileFunction,Plated,<from>,<to>`"
        )
    return Drills(name, (int(fields[1]), int(fields[2]))), ""


def need_one_kind(name, data):
    """Refuses a file with a word that says of holes that they are plated and that they are not."""
    found = in_both_ways(data)
    if found:
        raise Refused(
            f"{name}: line {found.line}, `{shown(found.words)}`, says that holes are plated and that they are not:"
            f" {APART}"
        )


def of(name, data):
    """What a drill file is: a file of plated holes, or a reason to leave it out."""
    need_one_kind(name, data)
    plating, line = Plating(data), unplated_hole(data)
    if line and not plating.is_unplated_alone():
        raise Refused(
            f"{name}: line {line} makes a hole that the file itself calls unplated, and what it says of the others does"
            f" not fit or is missing: {APART}"
        )
    said = list(dict.fromkeys(",".join(fields) for _, fields, _ in plating.functions))
    if len(said) > 1:
        raise Refused(f"{name} has several comments TF.FileFunction ({'; '.join(map(shown, sorted(said)))}): {APART}")
    if said:
        return of_attribute(name, said[0], data)
    if plating.is_unplated_alone():
        who = (
            "its comment says TYPE=NON_PLATED"
            if False in plating.types
            else "each of its tools says that it is not plated"
        )
        return None, f"{who}, so its holes join nothing"
    return Drills(name, *by_other_evidence(name, plating)), ""


def of_gerber(name, said, data):
    """What a drill file in the Gerber format is, by its file functions."""
    need_one_kind(name, data)
    if len(said) > 1:
        raise Refused(f"{name} has several attributes TF.FileFunction ({'; '.join(map(shown, sorted(said)))}): {APART}")
    return of_attribute(name, said[0], b"")


def by_other_evidence(name, plating):
    """The span, (0, 0) of unplated holes, and the evidence for it; it is told and confirmed as other guesses are."""
    tools = set(plating.tools.values())
    if tools and None not in tools:
        return None, (
            "its comment says TYPE=PLATED, and not which layers the holes span"
            if plating.types == {True}
            else "its tools say whether they are plated, and nothing which layers the holes span"
        )
    if True in tools:
        return (
            None,
            (
                f"it says of some of its tools that they are plated, nothing of others (T{plating.unsaid()[0]}), "
                "and not which layers the holes span"
            ),
        )
    if UNPLATED_NAME.search(name):
        return (0, 0), "its name says that its holes are not plated"
    return None, (
        "its name says that its holes are plated, and nothing which layers they span"
        if PLATED_NAME.search(name)
        else "nothing says whether its holes are plated and which layers they span"
    )


def judge(drills, layers):
    """The drill files with their spans, each within the layers."""
    for it in drills:
        first, last = it.span = it.span or (1, layers)
        if not 1 <= first <= last <= layers:
            raise Refused(
                f"{it.name} spans layers {first} to {last} of {layers}: export every copper layer, or the drill file"
                " anew"
            )
    if len(drills) > 64:
        raise Refused(f"there are {len(drills)} drill files, and `check` takes 64")
    return drills
