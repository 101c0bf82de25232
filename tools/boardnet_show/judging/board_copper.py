"""The shapes of a board's pieces: copper from `flatten`'s normal form, holes from the drill lines that the report
names."""
from boardnet_show.base.statuses import BadCopper
from boardnet_show.formats.drills.drilled_holes import add_drilled
from boardnet_show.formats.normal_form import add_flat
from boardnet_show.geometry.shapes import Shapes

from . import judged


def lines_of(files, report):
    """How many pieces each file has, and the commands or lines that make them."""
    counts, lines = [0] * len(files), [set() for _ in files]
    for file, command, *_ in report.sources:
        counts[file] += 1
        lines[file].add(command)
    return counts, lines


class Known:
    """The files of a board whose shapes are known: the pieces of each, by its bytes and of a drill file the lines
    with holes."""

    def __init__(self, board):
        self.shapes, self.pieces, first = board.shapes, {}, 0
        files = board.manifest.files
        for file, (name, count, lines) in enumerate(zip(files, *lines_of(files, board.report))):
            self.pieces[board.package.read(name), frozenset(lines) if board.manifest.is_drilled(file) else None] = (
                first,
                first + count,
            )
            first += count


def shapes_of(package, report, flatten, known=None):
    """The shape of every piece. `flatten(name)` answers the normal form of a copper file; what is `known` of another
    board is taken."""
    files, shapes = package.manifest.files, Shapes()
    counts, lines = lines_of(files, report)
    for file, name in enumerate(files):
        before, is_drilled = len(shapes), package.manifest.is_drilled(file)
        key = known and (package.read(name), frozenset(lines[file]) if is_drilled else None)
        if known and key in known.pieces:
            shapes.take(known.shapes, *known.pieces[key])
        elif is_drilled:
            add_drilled(shapes, package.read(name), lines[file])
        else:
            add_flat(shapes, flatten(name))
        if len(shapes) - before != counts[file]:
            raise BadCopper(f"{name}: {len(shapes) - before} shapes, but the report has {counts[file]} of it")
    must_fit(shapes, report)
    return shapes


def shapes_of_judged(program, told, known=None):
    """The same of a judged package."""
    return shapes_of(told.package, told.report, judged.flat_of(program, told.package), known)


def must_fit(shapes, report):
    """Every piece's box meets its parent's: a cheap sign that shapes and report belong together."""
    boxes = shapes.all_boxes()
    for piece, parent in enumerate(report.parent):
        if parent >= 0:
            a, b = boxes[piece], boxes[parent]
            if a[0] > b[2] or b[0] > a[2] or a[1] > b[3] or b[1] > a[3]:
                raise BadCopper(f"the shapes {parent} and {piece} do not touch, and the report says that they do")
