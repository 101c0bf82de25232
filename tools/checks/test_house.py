"""Tries tools/house: that the picture is current, and what it refuses."""
import contextlib
import importlib.machinery
import importlib.util
import io
import re
import unittest
import xml.etree.ElementTree
from pathlib import Path

TOOLS = Path(__file__).resolve().parent.parent
loader = importlib.machinery.SourceFileLoader("house", str(TOOLS / "house"))
loader.exec_module(house := importlib.util.module_from_spec(importlib.util.spec_from_loader("house", loader)))


class House(unittest.TestCase):
    def test_current(self):
        out = io.StringIO()
        with contextlib.redirect_stdout(out):
            self.assertEqual(house.main(["--check"]), 0, out.getvalue())

    def test_all_are_in_it(self):
        text = (house.TOP / house.PICTURE).read_text()
        told = [it.text for it in xml.etree.ElementTree.fromstring(text).iter("{http://www.w3.org/2000/svg}text")]
        below, names = house.crates((house.TOP / "crates.txt").read_text()), house.rooms(
            (TOOLS / "README.md").read_text()
        )
        self.assertGreater((len(below), len(names)), (40, 15))
        for name in [*below, *names]:
            self.assertEqual(told.count(name), 1, name)

    def test_lines(self):
        """To those that nothing between stands on, which lie lower."""
        below = house.crates("# lowest first\na: std\nb: a\nc may_abort=1: b a # more\n")
        self.assertEqual(below, {"a": set(), "b": {"a"}, "c": {"b", "a"}})
        self.assertEqual([house.direct(name, below) for name in "abc"], [set(), {"a"}, {"b"}])
        self.assertEqual([house.boxes(below)[name][1] for name in "abc"], [0, 1, 2])

    def test_an_unknown_crate(self):
        with self.assertRaisesRegex(house.Amiss, "other"):
            house.picture({**house.crates((house.TOP / "crates.txt").read_text()), "other": set()}, ["judging"])
        self.assertTrue(re.search("crates.txt", house.__doc__))


if __name__ == "__main__":
    unittest.main()
