"""The rooms of the scripts: each imports only itself and rooms below it, and has one sentence and few modules. Imports inside functions count."""
import ast
import os
import re
import unittest
from typing import Dict, Iterator, List, Set, Tuple

from tests.fixtures import common

PACKAGE = "boardnet_show"
HOME = os.path.join(common.TOOLS, PACKAGE)
# The rooms, the lowest first; tools/README.md has the same table.
ROOMS = (
    "base",
    "geometry",
    "formats",
    "formats.drills",
    "intake.mends",
    "intake.evidence",
    "intake",
    "bounds.polarity",
    "bounds.primitives",
    "bounds.apertures",
    "bounds.files",
    "judging",
    "findings",
    "fitting",
    "netlists",
    "output.sentences",
    "extras.as_made",
    "extras",
    "output",
    "command",
)
MOST_MODULES = 14
# Names that say nothing to who does not know them.
FORBIDDEN = {
    "beside",
    "aims",
    "bundles",
    "strands",
    "runs",
    "swaps",
    "seldom",
    "unlike",
    "side",
    "joint",
    "told",
    "rounds",
    "implied",
    "spots",
}


def modules() -> Iterator[Tuple[str, str]]:
    """(room, name) of each module; the package's own first lines and those of a folder of rooms are none."""
    for home, _, names in sorted(os.walk(HOME)):
        room = os.path.relpath(home, HOME).replace(os.sep, ".")
        yield from (
            (room, name[: -len(".py")]) for name in sorted(names) if name.endswith(".py") and name != "__init__.py"
        )


def tree_of(room: str, name: str) -> ast.Module:
    with open(os.path.join(HOME, *room.split("."), name + ".py"), encoding="utf-8") as file:
        return ast.parse(file.read())


def room_of(module: str) -> str:
    """The room of a module or of one of its symbols, by its name below the package."""
    return max((room for room in ROOMS if module == room or module.startswith(room + ".")), key=len, default="")


def imported(room: str, tree: ast.AST) -> Iterator[str]:
    """The rooms that a module imports, wherever it does."""
    for node in ast.walk(tree):
        if isinstance(node, ast.Import):
            names = [alias.name for alias in node.names]
        elif isinstance(node, ast.ImportFrom):
            above = room.split(".")[: len(room.split(".")) - node.level + 1] if node.level else []
            base = ".".join([*([PACKAGE] if node.level else []), *above, *([node.module] if node.module else [])])
            names = [f"{base}.{alias.name}" for alias in node.names]
        else:
            continue
        yield from (room_of(name[len(PACKAGE) + 1 :]) for name in names if name.startswith(PACKAGE + "."))


def edges() -> Dict[str, Set[str]]:
    """The rooms that each room imports, but itself."""
    found: Dict[str, Set[str]] = {room: set() for room in ROOMS}
    for room, name in modules():
        found[room].update(set(imported(room, tree_of(room, name))) - {room})
    return found


def sentences() -> List[Tuple[str, str]]:
    """Each room with what its `__init__` says of it."""
    rows = []
    for room in ROOMS:
        with open(os.path.join(HOME, *room.split("."), "__init__.py"), encoding="utf-8") as file:
            rows.append((room, " ".join((ast.get_docstring(ast.parse(file.read())) or "").split())))
    return rows


class Rooms(unittest.TestCase):
    def test_order(self):
        for room, others in edges().items():
            above = [other for other in others if other not in ROOMS[: ROOMS.index(room)]]
            self.assertEqual(above, [], f"{room} imports what stands above it")

    def test_reads_imports(self):
        """Of each form, at the top and inside a function."""
        rows = [
            ("from boardnet_show.formats import report", "formats"),
            ("from boardnet_show.formats.report import Report", "formats"),
            ("def f():\n    from boardnet_show.output import page", "output"),
            ("import boardnet_show.geometry.arcs", "geometry"),
            ("from . import arcs", "geometry"),
            ("from .arcs import Arc", "geometry"),
            ("from ..formats import report", "formats"),
            ("from boardnet_show.intake.mends import table", "intake.mends"),
        ]
        for text, wanted in rows:
            self.assertEqual(list(imported("geometry", ast.parse(text))), [wanted], text)
        self.assertEqual(list(imported("geometry", ast.parse("import os\nfrom typing import List"))), [])

    def test_all_rooms(self):
        self.assertEqual({room for room, _ in modules()}, set(ROOMS))

    def test_sizes(self):
        for room in ROOMS:
            self.assertLessEqual(sum(of == room for of, _ in modules()), MOST_MODULES, room)

    def test_sentences(self):
        """One sentence each, and the map has it."""
        with open(os.path.join(common.TOOLS, "README.md"), encoding="utf-8") as file:
            table = re.findall(r"(?m)^\| `([\w.]+)` \| (.*?) \|", file.read())
        for room, text in sentences():
            self.assertRegex(text, r"\A[A-Z][^.]*\.\Z", room)
        self.assertEqual([row for row in table if row[0] in ROOMS], sentences())


class Names(unittest.TestCase):
    def test_modules(self):
        self.assertEqual([name for _, name in modules() if name in FORBIDDEN], [])

    def test_functions(self):
        for room, name in modules():
            for node in ast.walk(tree_of(room, name)):
                if isinstance(node, (ast.FunctionDef, ast.Lambda)):
                    args = [*node.args.args, *node.args.kwonlyargs]
                    self.assertNotIn("it", [arg.arg for arg in args], f"{room}.{name} line {node.lineno}")
                    self.assertNotIn(
                        getattr(node, "name", ""), ("told", "text", "place"), f"{room}.{name} line {node.lineno}"
                    )


if __name__ == "__main__":
    unittest.main()
