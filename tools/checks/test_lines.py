"""How long lines and functions of the package are: as tools/README.md says."""
import ast
import os
import unittest
from typing import Iterator, Tuple

from tests.fixtures import common

HOME = os.path.join(common.TOOLS, "boardnet_show")
MOST_COLUMNS, MOST_LINES = 120, 40


def sources() -> Iterator[Tuple[str, str]]:
    """The modules' names and texts."""
    for home, _, names in os.walk(HOME):
        for name in sorted(names):
            if name.endswith(".py"):
                path = os.path.join(home, name)
                with open(path, encoding="utf-8") as file:
                    yield os.path.relpath(path, HOME), file.read()


class Lengths(unittest.TestCase):
    def test_lines(self) -> None:
        found = [
            f"{name} line {number}: {len(line)} columns"
            for name, text in sources()
            for number, line in enumerate(text.split("\n"), 1)
            if len(line) > MOST_COLUMNS
        ]
        self.assertEqual(found, [])

    def test_functions(self) -> None:
        found = [
            f"{name} {node.name}: {node.end_lineno - node.lineno + 1} lines"
            for name, text in sources()
            for node in ast.walk(ast.parse(text))
            if isinstance(node, ast.FunctionDef) and (node.end_lineno or 0) - node.lineno >= MOST_LINES
        ]
        self.assertEqual(found, [])


if __name__ == "__main__":
    unittest.main()
