"""Of the upper of two bounds the copper of the commands that are written otherwise below. Only these are flattened and
read: all others make the same copper in both, but for a fifth of a nanometre at pens off the grid."""
from boardnet_show.base.statuses import BadCopper
from boardnet_show.formats.normal_form import add_flat
from boardnet_show.geometry.shapes import Shapes

from . import two_bounds
from .judged import flat_of

DRAWN = "D01*"


def reduced(text, sources, unlike):
    """A side's file with the words of some commands alone, all definitions and blocks, and a move to where each
    command begins."""
    lines, kept, last, is_there = text.split("\n"), [], 0, False
    for k in [k for k, (line, source) in enumerate(zip(lines, sources)) if source in unlike or line[0] in "%M"]:
        is_there, line = is_there and k == last + 1, lines[k]
        if line[0] == "X":
            if not is_there and line.endswith(DRAWN):
                kept.append(place_before(lines, k) + "D02*")
            is_there = True
        kept.append(line)
        last = k
    return "\n".join([*kept, ""])


def place_before(lines, k):
    """The place of the last operation before a line."""
    while lines[k - 1][:1] != "X":
        k -= 1
    return lines[k - 1].split("D")[0]


def above(program, high, sides):
    """(shapes, sources by the user's commands) of the upper board's pieces that may be other ones; BadCopper where
    they are not known."""
    package, shapes, told = high.package, Shapes(), []
    own = two_bounds.own_commands(high.report, package.manifest, sides.sources[1]).sources
    for file, name in enumerate(package.manifest.copper):
        unlike = sides.unlike.get(name)
        its = [source for source in own if source[0] == file and source[1] in unlike] if unlike else []
        if its:
            part = package.free_name("unlike", ".gbr")
            package.put(
                part, reduced(package.read(name).decode("latin-1"), sides.sources[1][name], unlike).encode("latin-1")
            )
            add_flat(shapes, flat_of(program, package)(part))
            told += its
        if len(shapes) != len(told):
            raise BadCopper(f"{name}: the most copper that it can mean is not that of the report")
    return shapes, told
