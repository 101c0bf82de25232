"""The first page: what it quotes is what the program prints, its figures are those of other pages, and each status is a known one."""
import os
import re
import unittest

from tests.fixtures import common


def read(*names):
    with open(os.path.join(common.TOP, *names), encoding="utf-8") as file:
        return file.read()


class Readme(common.Case):
    def test_answer(self):
        """The lines of an example, as `show` prints them."""
        quoted = re.search(r"(?m)^    FAIL opens_and_shorts: (?:.*\n    )+.*$", read("README.md"))[0]
        wanted = [line[4:] for line in quoted.splitlines()]
        self.example("opens_and_shorts", "opens_and_shorts")
        status, out, _ = self.run_words(
            [os.path.join(common.TOOLS, "show"), "opens_and_shorts"], environment={"BOARDNET": common.program()}
        )
        self.assertEqual((status, out.splitlines()[: len(wanted)]), (1, wanted))

    def test_statuses(self):
        told = {
            int(number) for cell in re.findall(r"(?m)^\| ([\d, ]+) \|", read("README.md")) for number in cell.split(",")
        }
        known = {
            int(number) for number in re.findall(r"(?m)^  (\d+)  ", read("tools", "help.txt").partition("= status")[2])
        }
        self.assertTrue({0, 1, 3, 11, 12} <= told <= known, told)

    def test_figures(self):
        """Minutes of the first hour, and versions of tools, are those of the pages that have them from a run."""
        page, performance, exporting = (
            read("README.md"),
            read("docs", "PERFORMANCE.md"),
            read("docs", "using", "exporting.md"),
        )
        minutes = [int(it) for it in re.findall(r"proved after (\d+):\d\d and (\d+):", performance)[0]]
        self.assertIn(f"in up to {max(minutes) + 1} minutes", page)
        seconds = [int(it) for it in re.findall(r"a trial build after (\d+) s .*?, (\d+) s", performance)[0]]
        self.assertLessEqual(max(seconds), 120)
        self.assertIn("within two minutes", page)
        for tool in re.findall(r"(?:KiCad|pcb-rnd) [\d.]+\d", page):
            self.assertIn(tool, exporting)
        for name in ("Altium", "Allegro", "PADS", "Eagle", "LibrePCB"):
            self.assertIn(name, page)


if __name__ == "__main__":
    unittest.main()
