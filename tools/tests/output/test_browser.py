"""The page in a real browser, where there is one: what it does, by what it tells of itself and by what it draws."""
import unittest
from unittest import mock

from boardnet_show.base.facts import Flood
from boardnet_show.output import page, svg
from boardnet_show.output.sentences import findings
from tests.fixtures import browser, common, pages
from tests.fixtures.made import netlist, record
from tests.fixtures.pages import BOARD, IDS

# What is drawn on a part of a canvas, by a copy of it.
READ = """((id, x = 0, y = 0, w = 0, h = 0) => {
  const c = document.getElementById(id), copy = new OffscreenCanvas(w || c.width, h || c.height).getContext('2d', {willReadFrequently: true});
  copy.drawImage(c, -x, -y);
  return copy.getImageData(0, 0, w || c.width, h || c.height).data; })"""
# The colours that fill pixels of a part of the board, in millimetres from its lower left corner.
COLOURS = f"""((id, x, y, w, h) => {{
  const c = document.getElementById(id), [vx, vy, s, flip] = document.documentElement.dataset.view.split(' ').map(Number), seen = new Set();
  const px = x => c.width / 2 + (x * 1e6 - vx) * s * flip, size = side => Math.max(1, Math.round(side * 1e6 * s));
  const d = {READ}(id, Math.round(Math.min(px(x), px(x + w))), Math.round(c.height / 2 - ((y + h) * 1e6 - vy) * s), size(w), size(h));
  for (let i = 0; i < d.length; i += 4) if (d[i + 3] === 255) seen.add('#' + [...d.slice(i, i + 3)].map(v => v.toString(16).padStart(2, '0')).join(''));
  return [...seen]; }})"""
PIXELS = f"crypto.subtle.digest('SHA-256', {READ}('copper')).then(sum => Array.from(new Uint8Array(sum)).join())"
BLUE, ORANGE, PINK, BLACK, YELLOW, RED = "#0072b2", "#d55e00", "#a0006b", "#000000", "#f5d000", "#a83200"
WHITE = "#ffffff"


@unittest.skipUnless(browser.PROGRAM, browser.WHY_NOT)
class InABrowser(common.Case):
    @classmethod
    def setUpClass(cls):
        cls.shown = pages.shown_of(BOARD)
        cls.text = page.page_html(cls.shown)
        cls.browser = browser.Browser()
        cls.addClassCleanup(cls.browser.close)

    def setUp(self):
        super().setUp()
        self.browser.events.clear()
        self.browser.prefer("light")

    def tearDown(self):
        self.assertEqual(self.browser.complaints(), [])

    # ---- what the page tells

    def open(self, text=None, place=""):
        return self.browser.open(self.write("page.html", text or self.text), place)

    def ask(self, code):
        return self.browser.ask(code)

    def data(self, name):
        return self.ask(f"document.documentElement.dataset.{name}")

    def text_of(self, selector):
        return self.ask(f"document.querySelector({selector!r})?.textContent")

    def all(self, selector, of="textContent"):
        return self.ask(f"[...document.querySelectorAll({selector!r})].map(it => it.{of})")

    def click(self, selector):
        self.ask(f"document.querySelector({selector!r}).click()")
        self.browser.rest()

    def go(self, place):
        self.ask(f"location.hash = {place!r}")
        self.browser.rest()

    def middle(self):
        """The middle of what is seen, in micrometres."""
        x, y, *_ = self.data("view").split()
        return round(int(x) / 1000), round(int(y) / 1000)

    def scale(self):
        return float(self.data("view").split()[2])

    def current(self):
        return self.ask("document.querySelector('li[aria-current]')?.id || ''")

    def on_screen(self, x, y):
        """A place of the board in millimetres, in pixels of the window."""
        vx, vy, s, flip = map(float, self.data("view").split())
        left, top, width, height = self.ask(
            "(b => [b.left, b.top, b.width, b.height])(document.getElementById('marks').getBoundingClientRect())"
        )
        return left + width / 2 + (x * 1e6 - vx) * s * flip, top + height / 2 - (y * 1e6 - vy) * s

    def point_at(self, x, y):
        """What the page says of a place under the pointer."""
        self.browser.mouse("mouseMoved", *self.on_screen(x, y + 0.05))
        self.browser.mouse("mouseMoved", *self.on_screen(x, y))
        self.browser.rest()
        return self.text_of("#readout")

    def colours(self, canvas, x, y, width=0.0, height=0.0):
        return set(self.ask(f"{COLOURS}({canvas!r}, {x}, {y}, {width}, {height})"))

    def pixels(self):
        return self.ask(PIXELS)

    # ---- findings

    def test_findings_by_their_links(self):
        rows = {
            "open-0": ((1500, 5000), "1", "R1 pin 2 (top, 3.000, 5.000 mm) is not joined to"),
            "short-0": ((5000, 0), "2", "GND and VCC meet on bottom"),
            "missing-0": (None, "1", "no copper of top.gbr lies under </b>"),
        }
        for name, (middle, front, words) in rows.items():
            self.open(place="#" + name)
            self.assertEqual((self.current(), self.data("chosen"), self.data("front")), (name, name, front))
            self.assertIn(words, self.text_of("#spoken"))
            self.assertIn(self.middle(), (middle, self.middle() if middle is None else None))
            self.assertEqual(
                self.ask("document.getElementById('copper').classList.contains('pale')"), name != "missing-0"
            )
            self.assertGreater(len(self.all(".more button")), 0)

    def test_an_open(self):
        self.open(place="#open-0")
        self.assertLessEqual({BLUE}, self.colours("marks", 2.6, 5.35, 0.8, 0.1))
        self.assertLessEqual({ORANGE, WHITE}, self.colours("marks", -0.4, 5.25, 0.8, 0.15), "the other part is striped")
        self.assertIn(PINK, self.colours("marks", 0.6, 4.9, 1.8, 0.2), "a line between the nearest points")
        self.assertEqual([words.split(" (")[0] for words in self.all("#legend div")], ["net 2", "net 1"])
        self.assertIn("Copper 2.000 mm apart at top, 1.500, 5.000 mm", self.all(".more button"))

    def test_a_short(self):
        """It stands where its names meet, which is framed; the whole board shows both."""
        self.open(place="#short-0")
        self.assertEqual(self.middle(), (5000, 0))
        framed = self.scale()
        left, right = (self.on_screen(x, 0)[0] for x in (4, 6))
        self.assertGreater(right - left, self.ask("document.getElementById('marks').clientHeight") / 4)
        self.browser.key("f")
        self.browser.rest()
        self.assertLessEqual({BLUE}, self.colours("marks", -0.4, 0.3, 0.8, 0.1))
        self.assertLessEqual({ORANGE, WHITE}, self.colours("marks", 9.6, 0.25, 0.8, 0.15), "the other side is striped")
        self.assertLessEqual(
            {YELLOW, BLACK},
            self.colours("marks", 4, -0.09, 2, 0.18),
            "what could be either's, and the place where the names meet",
        )
        self.assertEqual(self.all("#legend div"), ["copper of GND", "copper of VCC", "could be either's: 1 piece"])
        self.assertIn("GND and VCC meet at bottom, 5.000, 0.000 mm", self.text_of(".more"))
        chain = [words.split(":")[0] for words in self.all(".more details button")]
        self.assertEqual((chain[0], chain[-1], "either's" in chain), ("GND", "VCC", True), "the path, piece by piece")
        self.assertIn("either's: piece 6, bot.gbr command 11, bottom", self.all(".more details button"))
        before = self.scale()
        self.click(".more details button")
        self.assertGreater(self.scale(), before)
        self.browser.key("z")
        self.assertAlmostEqual(self.scale() / framed, 1)

    def test_a_missing_point(self):
        self.open(place="#missing-0")
        self.assertIn(RED, self.colours("marks", -0.9, 9.6, 0.8, 0.8))
        self.assertIn("4.524 mm to the nearest copper of the layer: net 1 (SIG)", self.text_of("#legend"))
        self.assertIn("Nearest copper: piece 2, top.gbr command 9, top", self.all(".more button"))

    def test_clicks(self):
        self.open()
        self.browser.click(*self.on_screen(5, 0))
        self.assertEqual(self.data("chosen"), "short-0", "the mark of a finding")
        self.click("#open-0 a")
        self.assertEqual(self.data("chosen"), "open-0", "the row of a finding")
        self.click("#missing-0 .more button, #open-0 .more button")
        self.assertEqual(self.middle(), (3000, 5000))
        self.go("piece-6")
        self.browser.click(*self.on_screen(4, 0))
        self.assertEqual(self.ask("location.hash"), "#net-0", "the net of the copper")
        self.assertTrue(self.text_of("#about").startswith("Net 0: GND, VCC. 7 pieces."))
        for nothing in ("net-99", "net-", "piece-1.5", "point--1", "open-9", "%3Cb%3E"):
            self.go(nothing)
            self.assertEqual(self.data("chosen"), "", nothing)

    def test_keyboard(self):
        self.open()
        before = self.middle()
        for key, wanted in (("n", IDS[0]), ("n", IDS[1]), ("n", IDS[2]), ("n", IDS[0]), ("p", IDS[2])):
            self.browser.key(key)
            self.assertEqual((self.current(), self.ask("location.hash")), (wanted, "#" + wanted))
        self.ask("history.back()")
        self.browser.rest()
        self.assertEqual(self.current(), IDS[0])
        self.browser.key("Escape")
        self.assertEqual((self.current(), self.ask("location.hash")), ("", ""))
        for key in ("ArrowRight", "ArrowUp"):
            self.browser.key(key)
            self.assertNotEqual(self.middle(), before)
        for key in ("f", "2"):
            self.browser.key(key)
        self.assertEqual((self.middle(), self.data("front")), (before, "2"))
        scale = self.scale()
        self.browser.key("+")
        self.assertGreater(self.scale(), scale)
        for key, box, wanted in (("t", "points", False), ("o", "others", False), ("m", "flip", True)):
            self.browser.key(key)
            self.assertEqual(self.ask(f"document.getElementById('{box}').checked"), wanted)
        self.click("#layer0")
        self.browser.key("a")
        self.assertTrue(self.ask("document.getElementById('layer0').checked"))
        self.browser.key("/")
        self.assertEqual(self.ask("document.activeElement.id"), "seek")
        self.browser.key("m")
        self.assertTrue(self.ask("document.getElementById('flip').checked"), "typing is no command")

    def test_keyboard_in_the_list(self):
        self.open()
        self.ask("document.querySelector('#open-0 a').focus()")
        for key, wanted in (
            ("ArrowDown", "short-0"),
            ("ArrowDown", "missing-0"),
            ("ArrowDown", "missing-0"),
            ("ArrowUp", "short-0"),
        ):
            self.browser.key(key)
            self.assertEqual(self.ask("document.activeElement.parentElement.id"), wanted)
        self.click("#everywhere")
        self.browser.key("n")
        self.assertEqual(self.current(), "", "keys of the picture alone")

    # ---- the copper

    def test_copper_by_layer_and_net(self):
        self.open()
        names = {self.colours("copper", x, y, 0.1, 0.1).pop() for x, y in ((-0.45, 0), (-0.45, 5), (2.55, 5))}
        self.assertEqual(len(names), 3, "each net has a colour of its own")
        self.assertEqual(
            self.colours("copper", -0.45, 0, 0.1, 0.1),
            self.colours("copper", 9.6, 0, 0.1, 0.1),
            "both ends of one net have one",
        )
        self.assertNotIn(self.colours("copper", 4, 0).pop(), names, "copper of a layer that is not in front is paler")
        self.browser.key("2")
        self.assertLessEqual(self.colours("copper", 4, 0), names)
        self.click("#layer0")
        self.assertEqual(self.colours("copper", 3, 5.3), {WHITE}, "a layer that is switched off")
        self.click("#layer1")
        self.assertEqual(self.colours("copper", -1, -1, 12, 0.5) | self.colours("copper", 4, 0), {WHITE})
        self.click("#layer0")
        before = self.pixels()
        self.click("#points")
        self.assertNotEqual(self.pixels(), before, "test points")
        self.go("net-1")
        self.click("#others")
        self.assertEqual(self.ask("getComputedStyle(document.getElementById('copper')).opacity"), "0", "other nets")

    def test_from_below(self):
        self.open()
        above = self.on_screen(0, 5)
        self.click("#flip")
        middle = self.on_screen(*(v / 1000 for v in self.middle()))
        self.assertAlmostEqual(self.on_screen(0, 5)[0] - middle[0], middle[0] - above[0])
        self.assertNotEqual(self.colours("copper", 2.55, 5, 0.1, 0.1), {WHITE})
        self.assertIn("R1 pin 2", self.point_at(3, 5))

    def test_pointing(self):
        self.open(place="#piece-6")
        self.assertIn("net 0 (GND, VCC)  ·  piece 6, bot.gbr command 11, bottom", self.point_at(3, 0))
        self.assertIn("J1 pin 1, GND, n.ipc line 2", self.point_at(0, 0))
        self.assertIn("net 2 (SIG)", self.point_at(3, 5.3))
        self.go("")
        self.assertIn("open 0: click to see it", self.point_at(3, 5))
        self.assertRegex(self.point_at(6, 7), r"^[\d.]+, [\d.]+ mm$")

    def test_moving(self):
        self.open()
        x, y = self.on_screen(3, 5)
        self.browser.mouse("mouseWheel", x, y, deltaX=0, deltaY=-400)
        self.browser.rest()
        self.assertTrue(
            all(abs(a - b) < 1 for a, b in zip(self.on_screen(3, 5), (x, y))),
            "a wheel leaves the place under the pointer",
        )
        self.drag((x, y), (x + 90, y - 40))
        self.assertTrue(all(abs(a - b) < 1 for a, b in zip(self.on_screen(3, 5), (x + 90, y - 40))))

    def drag(self, start, end, steps=3):
        self.browser.mouse("mouseMoved", *start)
        self.browser.mouse("mousePressed", *start, button="left", clickCount=1)
        for k in range(1, steps + 1):
            self.browser.mouse(
                "mouseMoved", *(a + (b - a) * k / steps for a, b in zip(start, end)), button="left", buttons=1
            )
        self.browser.mouse("mouseReleased", *end, button="left", clickCount=1)
        self.browser.rest()

    def test_moving_a_large_board(self):
        # What was painted while it moved is what a whole picture shows, but for the last bits of soft edges.
        self.open(page.page_html(pages.discs(100, 75)))
        self.ask("document.documentElement.dataset.cheap = 0")
        for key, end in (("+", (640, 430)), ("m", (780, 350)), ("+", (700, 290))):
            self.browser.key(key)
            self.click("#points")
            self.drag((700, 400), end)
            self.assertEqual(self.data("painted"), "part")
            self.ask(f"window.moved = {READ}('copper'); 0")
            self.click("#points")
            self.assertEqual(self.data("painted"), "whole")
            self.assertLess(
                self.ask(f"{READ}('copper').reduce((most, v, i) => Math.max(most, Math.abs(v - moved[i])), 0)"), 40, key
            )
            self.assertEqual(self.ask("document.getElementById('copper').style.transform"), "")

    # ---- the first look

    def sized(self, width, height):
        self.browser.call(
            "Emulation.setDeviceMetricsOverride", width=width, height=height, deviceScaleFactor=1, mobile=False
        )
        self.addCleanup(
            self.browser.call,
            "Emulation.setDeviceMetricsOverride",
            width=browser.WIDTH,
            height=browser.HEIGHT,
            deviceScaleFactor=1,
            mobile=False,
        )

    def bottom(self, selector):
        return self.ask(f"document.querySelector({selector!r}).getBoundingClientRect().bottom")

    def noted(self, count):
        """The board with so many notes, a flood and many findings."""
        shown = pages.many(self.shown, 400)
        notes = [
            f"file {k}.gbr is not sure in a way that takes a note of some length, which is told here once more"
            for k in range(count)
        ]
        long = mock.patch.object(
            page, "flood_words", return_value="397 of 400 test points lie beside the copper. " * 20
        )
        long.start()
        self.addCleanup(long.stop)
        return shown._replace(seen=shown.seen._replace(notes=notes, flood=Flood(397, 400)))

    def test_first_look(self):
        """Verdict, what is to be seen to first and the first finding stand on a small screen, however many notes there are; these are folded."""
        self.sized(1280, 720)
        for theme in ("light", "dark"):
            self.browser.prefer(theme)
            for count in (0, 1, 60):
                self.open(page.page_html(self.noted(count)))
                places = [
                    self.bottom(it) for it in (".verdict", ".told", ".notes summary", "#seek", "#findings li[id]")
                ]
                self.assertEqual(places, sorted(places))
                self.assertTrue(0 < places[0] and places[-1] <= 720, places)
                words = "How it was judged" + {0: "", 1: ", and 1 note", 60: ", and 60 notes"}[count]
                self.assertEqual(
                    (self.text_of(".notes summary"), self.ask("document.querySelector('.notes').open")), (words, False)
                )
                self.assertEqual(
                    (len(self.all(".notes .advice")), "The report was audited" in self.text_of(".notes .facts")),
                    (count, True),
                )

    def test_a_narrow_window(self):
        """Nothing is wider than the window, and the picture stands above the words."""
        self.sized(400, 800)
        self.open(page.page_html(self.noted(3)))
        self.assertLessEqual(self.ask("document.documentElement.scrollWidth"), 400)
        self.assertLess(
            self.bottom("#board"), self.ask("document.querySelector('.verdict').getBoundingClientRect().top") + 1
        )

    def test_printed_notes(self):
        """On paper notes are open, and folded again behind it."""
        self.open(page.page_html(self.noted(3)))
        told = [
            self.ask(f"dispatchEvent(new Event('{name}')), document.querySelector('.notes').open")
            for name in ("beforeprint", "afterprint")
        ]
        self.assertEqual(told, [True, False])

    # ---- search, and many findings

    def seek(self, text):
        self.ask(
            f"document.getElementById('seek').value = {text!r}; document.getElementById('seek').dispatchEvent(new Event('input'))"
        )
        return self.all("#found a", "hash"), self.all("#findings li[id]:not([hidden])", "id")

    def test_search(self):
        self.open()
        self.assertEqual(self.seek("vcc"), (["#net-0"], ["short-0"]))
        self.assertEqual(self.seek("r1.2"), (["#point-5"], []))
        self.assertEqual(self.seek("R1 pin"), (["#point-5"], ["open-0"]))
        self.assertEqual(self.seek("sig")[1], ["open-0", "missing-0"])
        for wanted in ("open-0", "missing-0", "open-0"):
            self.ask("document.activeElement.blur()")
            self.browser.key("n")
            self.assertEqual(self.current(), wanted, "the walk goes through what was found")
        self.assertEqual(self.seek("")[1], IDS)
        self.assertEqual(self.all("#found li"), [])
        self.seek("no such thing")
        self.assertEqual(self.all("#found li"), ["Nothing here is called no such thing."])

    def test_search_of_names_that_are_cut(self):
        """A whole name finds the net that has its front, where the netlist cut it."""
        long = "ABCDEFGHIJKLMN"
        self.open(
            page.page_html(
                pages.shown_of(
                    {**BOARD, "n.ipc": netlist(record(long, "J1.1", 0, 0, "00"), record("VCC", "U1.8", 10, 0, "00"))}
                )
            )
        )
        self.assertEqual(
            [self.seek(text)[0] for text in (long.lower(), long.lower() + "opq", "abcdefghijklm", "abcdefghijklmx")],
            [["#net-0"]] * 3 + [[]],
        )

    def test_many_findings(self):
        # More than stand open: the further ones are in folds, which a link, the walk and the search open.
        text = page.page_html(pages.many(self.shown, 1400))
        self.open(text)
        self.assertEqual(
            self.all("#findings summary"), ["missing 300 to 799", "missing 800 to 1299", "missing 1300 to 1399"]
        )
        self.assertEqual(len(self.all("#findings li[id]", "id")), 302, "what is folded is not built")
        self.browser.key("p")
        self.assertEqual(
            (self.current(), self.all("#findings details", "open")), ("missing-1399", [False, False, True])
        )
        self.go("missing-850")
        self.assertEqual((self.current(), self.all("#findings details", "open")), ("missing-850", [False, True, True]))
        self.assertEqual(self.seek("missing 555")[1], ["missing-555"])
        self.assertEqual(self.all("#findings details", "hidden"), [False, True, True])
        self.ask("Object.assign(document.getElementById('seek'), {value: ''}).dispatchEvent(new Event('input'))")
        self.assertEqual(len(self.all("#findings li[id]", "id")), 1402)

    # ---- light, dark, paper, readers

    def test_light_and_dark(self):
        pictures = {}
        for theme in ("dark", "light"):
            self.browser.prefer(theme)
            self.open()
            self.assertEqual(self.data("theme"), theme)
            pictures[theme] = self.pixels()
        self.assertNotEqual(pictures["dark"], pictures["light"])
        self.click("#theme")
        self.assertEqual((self.data("theme"), self.pixels()), ("dark", pictures["dark"]))

    def test_paper(self):
        self.browser.prefer("dark")
        self.open(place="#short-0")
        before = self.pixels()
        self.browser.prefer("dark", media="print")
        seen = self.ask(
            "['header', '#findings', '#open-0', '#short-0', '#missing-0', '#board', '#marks', '#legend', '.seek', '.keys', '#layers', '#tools', '#copper', '.more']"
            ".filter(it => document.querySelector(it)?.checkVisibility())"
        )
        self.assertEqual(
            seen, ["header", "#findings", "#open-0", "#short-0", "#missing-0", "#board", "#marks", "#legend"]
        )
        self.ask("dispatchEvent(new Event('beforeprint'))")
        self.browser.rest()
        self.assertEqual(
            (self.data("theme"), self.ask(f"{READ}('marks')[3] > 0")),
            ("light", True),
            "one canvas has the copper and the marks",
        )
        self.ask("dispatchEvent(new Event('afterprint'))")
        self.browser.prefer("dark")
        paper = self.browser.paper()
        self.assertTrue(paper.startswith(b"%PDF") and len(paper) > 20_000)
        self.browser.rest()
        self.assertEqual((self.data("theme"), self.pixels()), ("dark", before), "all is as it was")

    def test_for_readers(self):
        self.open(place="#open-0")
        nodes = [
            (it["role"]["value"], it.get("name", {}).get("value", ""))
            for it in self.browser.call("Accessibility.getFullAXTree")["nodes"]
            if not it.get("ignored")
        ]
        for role in ("button", "checkbox", "link", "searchbox", "image", "navigation"):
            names = [name for its, name in nodes if its == role]
            self.assertTrue(names and all(names), (role, names))
        links = [name for role, name in nodes if role == "link"]
        for finding in self.shown.findings:
            self.assertIn(f"{finding.kind} {finding.number} {findings.words(finding)}", links)
        self.assertIn("Opens 1", [name.strip() for role, name in nodes if role == "heading"])
        self.assertIn("Suggestion: their copper comes nearest", self.text_of("#spoken"))
        self.assertEqual(self.ask("document.getElementById('spoken').getAttribute('role')"), "status")

    def test_without_scripts(self):
        # Nor with a browser that cannot unpack: all findings stand in the page.
        path = "file://" + self.write("many.html", page.page_html(pages.many(self.shown, 800)))
        old = self.browser.call("Page.addScriptToEvaluateOnNewDocument", source="delete window.DecompressionStream")[
            "identifier"
        ]
        self.addCleanup(self.browser.call, "Page.removeScriptToEvaluateOnNewDocument", identifier=old)
        self.browser.call("Page.navigate", url=path)
        self.browser.until("document.querySelectorAll('#findings li[id]').length === 802")
        self.assertTrue(self.text_of("#readout").startswith("This browser cannot unpack the picture"))
        self.browser.call("Emulation.setScriptExecutionDisabled", value=True)
        self.addCleanup(self.browser.call, "Emulation.setScriptExecutionDisabled", value=False)
        self.browser.call("Page.navigate", url=path)
        self.browser.until("document.querySelectorAll('#findings li[id]').length === 802")
        self.assertEqual(self.all("main > noscript p"), ["The picture needs JavaScript. All findings stand above."])

    # ---- other boards

    def test_odd_boards(self):
        for name in pages.ODD:
            shown = pages.odd(name)
            self.open(page.page_html(shown))
            self.assertEqual(self.text_of("h1"), name)
            self.assertEqual(len(self.all("#layers button")), shown.board.manifest.layers, name)
            self.assertEqual(self.all("#findings li[id]", "id"), [it.id for it in shown.findings], name)
            for finding in shown.findings:
                self.browser.key("n")
                self.assertEqual(
                    self.text_of("#spoken").replace(f"{finding.kind} {finding.number} ", "", 1).split(" Suggestion")[0],
                    findings.words(finding),
                )
            if shown.board.report.pieces:
                self.go("piece-0")
                self.assertIn(f"piece 0, {shown.board.manifest.files[0]} command", self.text_of("#legend"))

    def test_picture(self):
        for number, name in enumerate((None, *IDS)):
            self.browser.call(
                "Page.navigate", url="file://" + self.write(f"{number}.svg", svg.picture(self.shown, name))
            )
            self.browser.rest()
            self.assertEqual(self.ask("document.documentElement.tagName"), "svg")
            self.assertIn(name or "board", self.text_of("title"))
