"""Tries docs/CLAIMS.md: that it has each clause of the top call and names no other, that its laws are there, and that crates' pages have all others."""
import glob
import os
import re
import unittest

from tests.fixtures import common

NAME = re.compile(r"`(\w+)`")


def read(*names):
    with open(os.path.join(common.TOP, *names), encoding="utf-8") as file:
        return file.read()


def rows(head):
    """The rows of the page's tables with that first head."""
    found, is_in = [], False
    for line in read("docs", "CLAIMS.md").splitlines():
        cells = [cell.strip() for cell in line.strip("|").split(" | ")]
        is_in = line.startswith(f"| {head} |") or is_in and line.startswith("|")
        if is_in and cells[0] != head and not cells[0].startswith("---"):
            found.append(cells)
    return found


def laws_told():
    """The page's laws with their crates: of a row that names none, those of the row before."""
    before = []
    for laws, crates, *_ in rows("Law"):
        before = NAME.findall(crates) or before
        yield from ((crate, law) for crate in before for law in NAME.findall(laws))


def laws_of(crate):
    """The source of a crate's laws: its root, where it has nothing else."""
    name = "laws.rt" if os.path.exists(os.path.join(common.TOP, "crates", crate, "src", "laws.rt")) else "lib.rt"
    return read("crates", crate, "src", name)


class Claims(unittest.TestCase):
    def test_clauses(self):
        told = {name for first, *_ in rows("Clause") for name in NAME.findall(first)}
        call = read("crates", "boardnet", "src", "run.rt").partition("pub fn run<")[2].partition("\n{\n")[0]
        self.assertEqual(told, set(re.findall(r"(?m)^    ensures (\w+) \{", call)))

    def test_readme(self):
        said = read("README.md").partition("## What is proved")[2].partition("Not proved:")[0]
        told = {name for head in ("Clause", "Law") for first, *_ in rows(head) for name in NAME.findall(first)}
        named = {name for cited in re.findall(r"\((`[^)]*)\)", said) for name in NAME.findall(cited)}
        self.assertTrue(named and named <= told, named - told)

    def test_edits(self):
        edits = {
            os.path.basename(path)[: -len(".edit")]
            for path in glob.glob(os.path.join(common.TOP, "crates", "*", "must-fail", "*.edit"))
        }
        for cells in rows("Clause") + rows("Law"):
            named = {name for name in NAME.findall(cells[-1]) if "_" in name}
            self.assertTrue(named <= edits, named - edits)

    def test_laws(self):
        for crate, law in laws_told():
            self.assertRegex(laws_of(crate), rf"pub fn {law}\b", (crate, law))

    def test_other_laws(self):
        told = set(laws_told())
        for path in sorted(glob.glob(os.path.join(common.TOP, "crates", "*", "src", "laws.rt"))):
            crate = os.path.relpath(path, os.path.join(common.TOP, "crates")).split(os.sep)[0]
            for law in re.findall(r"(?m)^pub fn (\w+)", laws_of(crate)):
                self.assertTrue(
                    (crate, law) in told or re.search(rf"\b{law}\b", read("crates", crate, "README.md")), (crate, law)
                )
