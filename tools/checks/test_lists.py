"""Tries tools/lists: that the documents are current, and what it makes of a small repository."""
import contextlib
import importlib.machinery
import importlib.util
import io
import re
import tempfile
import unittest
from pathlib import Path

TOOLS = Path(__file__).resolve().parent.parent
loader = importlib.machinery.SourceFileLoader("lists", str(TOOLS / "lists"))
loader.exec_module(lists := importlib.util.module_from_spec(importlib.util.spec_from_loader("lists", loader)))


def kinds(kind, rows):
    """A file of specs/ with a table of kinds."""
    return (
        f"row_of : {kind} → Row\nrow_of = elim [\n"
        + "".join(f'  | {name} ↦ row {n} "{name}"\n' for n, name in rows)
        + "]\n"
    )


def refusals(ways):
    """A page with the four tables, of which the first has these rows."""
    text = ""
    for _, _, kind in lists.KINDS:
        text += (
            f"<!-- {kind}: made by tools/lists -->\n"
            + (ways if kind == "GerberKind" else "| 1 | `Bad` | Wait. |\n")
            + f"<!-- {kind} end -->\n"
        )
    return text


class Lists(unittest.TestCase):
    def setUp(self):
        folder = tempfile.TemporaryDirectory()
        self.addCleanup(folder.cleanup)
        self.top = Path(folder.name)
        for _, source, kind in lists.KINDS:
            self.put(source, kinds(kind, [(1, "Bad")]))
        self.put("docs/using/refusals.md", refusals("| 1 | `Bad` | Mend it. |\n"))

    def put(self, name, text):
        path = self.top / name
        path.parent.mkdir(parents=True, exist_ok=True)
        path.write_text(text)

    def run_lists(self, *words):
        out = io.StringIO()
        with contextlib.redirect_stdout(out), contextlib.redirect_stderr(out):
            status = lists.main(list(words), self.top)
        return status, out.getvalue()

    def test_documents_are_current(self):
        self.top = lists.TOP
        self.assertEqual(self.run_lists("--check"), (0, "lists: current\n"))

    def test_readme_is_short(self):
        self.assertLessEqual(len((lists.TOP / "README.md").read_bytes()), 5000)

    def test_a_new_kind_wants_its_way_out(self):
        self.run_lists()
        self.put(lists.KINDS[0][1], kinds("GerberKind", [(1, "Bad"), (2, "Worse")]))
        self.assertEqual(self.run_lists("--check")[0], 1)
        self.assertEqual(self.run_lists(), (0, "refusals.md: written\n"))
        self.assertIn(
            "| 1 | `Bad` | Mend it. |\n| 2 | `Worse` |  |\n", (self.top / "docs/using/refusals.md").read_text()
        )
        self.assertEqual(self.run_lists("--check"), (1, "refusals.md: the way out of Worse is still to be written\n"))

    def test_a_kind_that_holds_others_has_no_row(self):
        table = kinds("Kind", [(31, "Bad"), (32, "Worse")]).replace("  | Bad", "  | Other kind ↦ row_of kind\n  | Bad")
        self.assertEqual(lists.rows(table, "Kind"), [(31, "Bad"), (32, "Worse")])

    def test_no_table(self):
        self.put(lists.KINDS[0][1], "row_of : GerberKind → Row\n")
        self.assertEqual(self.run_lists("--check"), (1, "no table of GerberKind\n"))

    def test_what_is_amiss_is_said(self):
        self.put("docs/using/refusals.md", "# r\n")
        self.assertEqual(self.run_lists("--check"), (1, "the markers of GerberKind do not stand once\n"))

    def test_other_words_are_refused(self):
        self.assertEqual(self.run_lists("--chek")[0], 2)


def answers():
    """The rows of docs/answers.txt: crate, calls, causes."""
    for line in (lists.TOP / "docs/answers.txt").read_text().splitlines():
        if line and not line.startswith("#"):
            crate, calls, causes = line.split(" | ")
            yield crate.strip("`"), names(calls), causes


def crates():
    """The names in crates.txt, in order."""
    lines = (lists.TOP / "crates.txt").read_text().splitlines()
    return [line.split()[0].rstrip(":") for line in lines if line.strip() and not line.startswith("#")]


def names(cell):
    """The last parts of the names in a cell."""
    return [name.split("::")[-1] for name in re.findall(r"`([^`]+)`", cell)]


def source_of(crate):
    """All of a crate's source but its tests."""
    files = sorted((lists.TOP / "crates" / crate / "src").rglob("*.rt"))
    return "\n".join(
        path.read_text() for path in files if "tests" not in path.relative_to(lists.TOP / "crates").as_posix()
    )


class Answers(unittest.TestCase):
    """The table of answers names calls and faults that are there. A call that a root gives on has a row, or one answer, and then its page has it."""

    def test_rows(self):
        self.assertGreater(len(list(answers())), 35)
        for crate, calls, _ in answers():
            source = source_of(crate)
            for call in calls:
                self.assertTrue(re.search(rf"\bfn {call}\b", source), f"{crate} has no call {call}")

    def test_pages_have_calls(self):
        for crate, calls, _ in answers():
            page = (lists.TOP / "crates" / crate / "README.md").read_text()
            for name in calls:
                self.assertTrue(re.search(rf"\b{name}\b", page), f"{crate}: its page has no {name}")

    def test_calls_of_roots(self):
        told = {(crate, call) for crate, calls, _ in answers() for call in calls}
        for crate in crates():
            root = lists.TOP / "crates" / crate / "src/lib.rt"
            given = re.findall(r"(?ms)^pub use \w+::(?:\{(.*?)\}|(\w+));", root.read_text()) if root.exists() else []
            for name in re.findall(r"\b[a-z_]\w*\b", " ".join(" ".join(it) for it in given)):
                page = (lists.TOP / "crates" / crate / "README.md").read_text()
                self.assertTrue((crate, name) in told or re.search(rf"\b{name}\b", page), (crate, name))

    def test_faults(self):
        told = " ".join(causes for _, _, causes in answers())
        for crate in crates():
            for enum, body in re.findall(r"(?s)\npub enum (\w*Fault) \{(.*?)\n\}", source_of(crate)):
                for variant in re.findall(r"(?m)^    ([A-Z]\w*)", body):
                    if variant not in ("NoMemory", "CannotRead", "Build", "Macro", "Gerber"):
                        self.assertIn(f"`{variant}`", told, (crate, enum))
