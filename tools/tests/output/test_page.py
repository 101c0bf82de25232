"""The page and the picture as files: what they hold, byte for byte the same each time, and how long they are."""
import base64
import hashlib
import html
import random
import re
import unittest
from collections import Counter
from html.parser import HTMLParser
from xml.dom import minidom

from boardnet_show.base.statuses import Stop
from boardnet_show.geometry.shapes import AREA, Shapes
from boardnet_show.output import page, svg
from tests.fixtures import made, pages
from tests.fixtures.made import netlist, record
from tests.fixtures.pages import BOARD, IDS, unpacked


class Reader(HTMLParser):
    """The tags of a page, counted, and its text."""

    def __init__(self):
        super().__init__()
        self.tags, self.text = Counter(), ""

    def handle_starttag(self, tag, attrs):
        self.tags[tag] += 1

    def handle_data(self, data):
        self.text += data


class Files(made.Case):
    def test_page(self):
        self.board(BOARD)
        status, _, notes = self.show("board", "--page", "page.html", "--svg", "board.svg")
        self.assertEqual((status, notes), (1, ""))
        text = self.read("page.html")
        for program in self.over_both():
            self.show("board", "--page", "again.html", program=program)
            self.assertEqual(
                text,
                self.read("again.html"),
                "the same package gives the same page, by the stand-in and by the program",
            )
        self.assertIsNone(
            re.search(r"https?:|//[a-z]|url\(|@import|\bfetch\(|XMLHttp", re.sub('type="text/plain">[^<]*<', "", text)),
            "nothing is fetched",
        )
        self.assertNotIn("</b> (", text)
        self.assertIn(html.escape("no copper of top.gbr lies under </b> ("), text)
        for tag in ("script", "style"):
            (inside,) = re.findall(rf"<{tag}>(.*?)</{tag}>", text, re.S)
            self.assertIn("sha256-" + base64.b64encode(hashlib.sha256(inside.encode()).digest()).decode(), text)
        head, columns = unpacked(text)
        self.assertEqual(
            (columns["counts"], columns["radii"][-3:]), ([1] * 6 + [2] + [1] * 2, [100_000, 200_000, 200_000])
        )
        self.assertEqual(
            ([it["id"] for it in head["findings"]], re.findall(r'<li id="([^"]+)"', text.split("<script")[0])),
            (IDS, IDS),
        )
        self.assertEqual(head["findings"][1]["sides"], ["GND", "VCC"])
        self.assertIn("FAIL: 1 open, 1 short and 1 test point without copper. ", text)
        self.assertEqual(
            self.show("board", "--svg", "f.svg", "--at", "open-7")[::2],
            (2, "boardnet: --at open-7: there is no such finding\n"),
        )

    def test_names_of_folders(self):
        # A name that is no UTF-8, and has a character that XML has not.
        name = "a\udcff\x01b"
        status, _, notes = self.show(
            self.board(BOARD, name),
            "--page",
            "p.html",
            "--svg",
            "p.svg",
            "--junit",
            "p.xml",
            "--rdb",
            "p.rdb",
            "--json",
            "-",
        )
        self.assertEqual((status, notes), (1, ""))
        for form in ("svg", "xml", "rdb"):
            minidom.parse(self.path("p." + form))
        with open(self.path("p.html"), "rb") as file:
            self.assertIn(rb"<title>a\xff\u0001b: boardnet</title>", file.read())

    def test_nothing_to_draw(self):
        # A board without pieces has a picture all the same; one that was refused has none, which is said.
        self.board(pages.ODD["no pieces"])
        self.assertEqual(self.show("board", "--page", "page.html", "--svg", "board.svg")[::2], (1, ""))
        minidom.parseString(self.read("board.svg"))
        self.board({"n.ipc": netlist(record("A", "J1.1", 0, 0)), "top.gbr": "%FSLAX46Y46*%\n"})
        status, _, notes = self.show("board", "--page", "none.html")
        self.assertEqual(
            (status, notes), (3, "boardnet: no picture is drawn, since the copper of board is not known\n")
        )


class Odd(unittest.TestCase):
    def test_pages_and_pictures(self):
        for name in pages.ODD:
            shown = pages.odd(name)
            text, drawing = page.page_html(shown), minidom.parseString(svg.picture(shown, None))
            self.assertEqual(drawing.getElementsByTagName("title")[0].firstChild.data, name)
            self.assertIn(f"<title>{html.escape(name)}: boardnet</title>", text)
            self.assertEqual(text.lower().count("<script"), text.lower().count("</script"), name)
            self.assertEqual(len(unpacked(text)[1]["counts"]), shown.board.report.pieces)
            for finding in shown.findings:
                minidom.parseString(svg.picture(shown, finding.id))

    def test_no_name_is_markup(self):
        shown = pages.odd("<i>&\"'")
        reader = Reader()
        reader.feed(page.page_html(shown))
        self.assertEqual(
            (reader.tags["b"], reader.tags["i"], reader.tags["s"], reader.tags["script"]),
            (len(shown.findings), 3, 0, 2),
        )
        for name in (*pages.HOSTILE, "<s> pin 1", "&amp; pin <", "</b>", "<i>&\"'", "<b>&\"'.gbr"):
            self.assertIn(name, reader.text)


class Picture(unittest.TestCase):
    def test_board_and_findings(self):
        shown = pages.shown_of(BOARD)
        whole = minidom.parseString(svg.picture(shown, None))
        self.assertEqual(len(whole.getElementsByTagName("circle")), 4 + 2 + 2 + 2)
        looks = {"open-0": {"a", "b"}, "short-0": {"a", "b", "c"}, "missing-0": {"copper"}}
        for name, place in {"open-0": (1500, -5000), "short-0": (5000, 0), "missing-0": (-500, -7750)}.items():
            picture = minidom.parseString(svg.picture(shown, name))
            self.assertEqual(picture.getElementsByTagName("title")[0].firstChild.data, name)
            left, low, width, height = map(float, picture.documentElement.getAttribute("viewBox").split())
            self.assertTrue(max(abs(left + width / 2 - place[0]), abs(low + height / 2 - place[1])) <= 1, name)
            drawn = {
                it.getAttribute("class").split(" ")[-1]
                for tag in ("circle", "path")
                for it in picture.getElementsByTagName(tag)
            }
            self.assertLessEqual(looks[name], drawn, name)
            self.assertIn("dasharray" if name == "open-0" else "<path", picture.getElementsByTagName("g")[-1].toxml())
        with self.assertRaises(Stop):
            svg.picture(shown, "open-1")


class Size(unittest.TestCase):
    def test_bytes_of_a_piece_and_a_corner(self):
        rng, shapes = random.Random(1), Shapes()
        for _ in range(20_000):
            x, y = rng.randrange(0, 10**9, 10**5), rng.randrange(0, 10**9, 10**5)
            shapes.add(
                1_000_000,
                [(x, y)]
                if rng.random() < 0.4
                else [(x, y), (x + rng.randrange(-(10**7), 10**7), y + rng.randrange(-(10**7), 10**7))],
            )
        small = len(page.block(pages.bare(shapes), []))
        x = y = 0
        for _ in range(20):
            corners = [
                (x := x + rng.randrange(-(10**5), 10**5), y := y + rng.randrange(-(10**5), 10**5))
                for _ in range(1000)
            ]
            shapes.add(AREA, corners)
        self.assertLess(small, 25 * 20_000)
        self.assertLess(len(page.block(pages.bare(shapes), [])) - small, 6 * 20_000)
