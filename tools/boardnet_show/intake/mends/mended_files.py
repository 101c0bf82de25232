"""The mends of a package's files, and of a folder's."""
import os
import re
from functools import partial

from boardnet_show.base import workers
from boardnet_show.base.statuses import REFUSED, Stop
from boardnet_show.base.wording import counted

from . import copper_mends, drill_mends, netlist_mends
from .mend import Mend, short
from .table import GERBER_DRILLS, described

MENDED = ".mended"
GERBER = re.compile(rb"%(?:FS|MO|TF|AD)")
HEAD = 65_536


def of_files(read, copper, drills, netlist, settled, told=lambda number, count: None):
    """(name, data, mends, lines) of each file that is mended, in order, lines as `package.lines` has them; `read` gives
    a file's bytes, or nothing where there are none, and `settled` of a drill file how its numbers are read, where that
    is said. `told` hears which file it is.
    """

    def drilled(name, data):
        return mended_gerber(name, data) if is_gerber(data) else drill_mends.with_lines(data, settled(name, data))

    rows = [(name, copper_mends.mended) for name in copper] + [(name, partial(drilled, name)) for name in drills]
    rows.append((netlist, partial(netlist_mends.mended, layers=len(copper))))
    works = [(mended, read(name)) for name, mended in dict(rows).items()]
    done = workers.mapped(mended_file, works, [len(data) for _, data in works])
    told(1, len(works))
    for number, (name, (text, mends, lines)) in enumerate(zip(dict(rows), done), 1):
        if mends:
            yield name, text, [described(name, it) for it in mends], lines
        told(min(number + 1, len(works)), len(works))


def mended_file(work):
    """The text, the mends and the lines of a file, by what mends it and its bytes."""
    mended, data = work
    text, mends, *lines = mended(data) if data else (data, [])
    return text, mends, lines[0] if lines else None


def is_gerber(data):
    """Whether a drill file is one in the Gerber format."""
    return bool(GERBER.search(data[:HEAD])) and b"M48" not in data[:HEAD]


def mended_gerber(name, data):
    """A drill file in the Gerber format as XNC, which is refused where it cannot be one."""
    from boardnet_show.formats.drills import gerber_drills  # few boards have one
    from boardnet_show.geometry.exact import Refused

    try:
        found = gerber_drills.written(data)
    except Refused as why:
        raise Stop(
            REFUSED,
            f"{name}: a drill file in the Gerber format, and {why}; to export: drill files in the " "Excellon format",
        ) from None
    its = f"{counted(found.flashes, 'flash', 'flashes')} and {counted(found.draws, 'draw')}"
    what = (
        f"says that it is a drill file in the Gerber format: its {its} are written as holes and slots, in other lines"
    )
    start, end = found.function.start, found.function.end
    return found.data, [Mend(GERBER_DRILLS, data.count(b"\n", 0, start) + 1, short(data[start:end]), 0, what)], []


def name_beside(name):
    """A mended copy's name: top.mended.gbr for top.gbr."""
    stem, ending = os.path.splitext(name)
    return stem + MENDED + ending


def is_copy(name, names):
    """Whether a file is the mended copy of one of these."""
    stem, ending = os.path.splitext(name)
    return stem.endswith(MENDED) and stem[: -len(MENDED)] + ending in names


def renamed(manifest, copies):
    """A manifest that names copies in place of files."""
    of = lambda name: copies.get(name, name)
    return {
        "copper": [of(name) for name in manifest["copper"]],
        "drills": [{**it, "file": of(it["file"])} for it in manifest["drills"]],
        "netlist": of(manifest["netlist"]),
    }
