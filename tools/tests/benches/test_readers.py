"""The bench of other readers, in its parts that run without them: the small files and their columns, places, random files, what makes
files smaller, planted faults, and how states are counted."""
import itertools
import os
import random
import re
import sys
import time
import types
import zipfile
from collections import Counter

from tests.fixtures import common

BENCHES = os.path.join(common.TOP, "benches")
sys.path.append(BENCHES)
from reading import (
    BARE,
    COPPER,
    NEAR,
    camv,
    compare,
    files,
    gerbv,
    klayout,
    netlists,
    others,
    ours,
    places,
    plants,
    random_files,
    rules,
    smallest,
    table,
    totals,
)
from reading.others import Told

HEAD = b"%FSLAX46Y46*%\n%MOMM*%\n"
FLAT = b"""%FSLAX47Y47*%
%MOMM*%
%ADD10C,1.0000000*%
D10*
X0Y0D02*
X50000000Y0D01*
X-70000000Y20000000D02*
X-70000000Y20000000D01*
G36*
X0Y100000000D02*
X30000000Y100000000D01*
X30000000Y140000000D01*
X0Y100000000D01*
G37*
M02*
"""


class SmallFiles(common.Case):
    def setUp(self):
        super().setUp()
        self.rules = list(rules.rules())

    def test_form(self):
        self.assertGreater(len(self.rules), 300)
        self.assertEqual([name for name, count in Counter(rule.name for rule in self.rules).items() if count > 1], [])
        for rule in self.rules:
            self.assertRegex(rule.says, r"^[01?]+$", rule.name)
            self.assertRegex(rule.reads, r"^(refused -|(exact|flattened|mended|between) [01?]+)( \w+)*$", rule.name)
            self.assertIn(rule.reads.split()[0], ours.HOWS)
            states = rule.reads.split()[1]
            if states != "-":
                self.assertEqual(len(states), len(rule.places), rule.name)
            # One bound alone may differ from the other.
            self.assertTrue("?" not in states or rule.reads.startswith("between"), rule.name)
            # A kind is named where `check` refuses, and there alone.
            self.assertEqual(len(rule.reads.split()) == 3, not rule.reads.startswith("exact"), rule.name)

    def test_columns_are_as_the_specification_says(self):
        for rule in self.rules:
            self.assertFalse(rules.is_otherwise(rule.says, rule.reads.split()[1]), rule.name)

    def test_each_form_is_there(self):
        self.assertEqual({rule.reads.split()[0] for rule in self.rules}, set(ours.HOWS))
        self.assertEqual({rule.kind for rule in self.rules}, {"copper", "drill"})

    def test_page_has_the_rules_as_they_are(self):
        with open(os.path.join(BENCHES, "READERS.md"), encoding="utf-8") as file:
            table_rows = file.read().partition("| Rule |")[2].splitlines()[2:]
        told = [tuple(cell.strip() for cell in row.strip("|").split("|")[:4]) for row in table_rows]
        self.assertGreater(len(told), 40)
        known = {(rule.has, rule.section, rule.says, rule.reads) for rule in self.rules}
        self.assertEqual([row for row in told if row not in known], [])

    def test_spelling(self):
        self.assertEqual(rules.written("MM <5,-0.25>D03* G04~a*"), HEAD + b"X5000000Y-250000D03*\nG04 a*\n")
        self.assertEqual(rules.written(r"'%\r\n'"), b"%\r\n")
        self.assertEqual(rules.written("M48 X1.0Y2.0"), b"M48\nX1.0Y2.0\n")
        with self.assertRaises(ValueError):
            rules.written("<0.0000001,0>")
        with self.assertRaises(ValueError):
            rules.rule_of("a | 1 | b\n    MM\n    at 1,2 3,4 | says 1 | reads exact 1", "copper")

    def test_otherwise(self):
        for says, states, wanted in (
            ("10", "10", False),
            ("1?", "10", False),
            ("1?", "0?", True),
            ("1", "b", False),
            ("1", "-", False),
            ("1", None, False),
        ):
            self.assertEqual(rules.is_otherwise(says, states), wanted, (says, states))

    def test_rows(self):
        rule = rules.Rule("n", "copper", "4.4", "has", b"", [(0, 0), (1, 1)], "1?", "exact 10")
        row = table.Row(
            rule,
            "exact 10",
            [
                table.Cell("a", "11", ""),
                table.Cell("b", "10", ""),
                table.Cell("c", None, "why"),
                table.Cell("d", "00", ""),
            ],
        )
        self.assertEqual((row.is_kept, row.otherwise), (True, ["a", "d"]))
        self.assertEqual(table.markdown([row])[2], "| has | 4.4 | 1? | exact 10 | **11** | 10 | reads none | **00** |")
        self.assertIn("OTHERWISE", table.line_of(row._replace(ours="exact 11")))
        self.assertFalse(row.is_alone)
        self.assertTrue(row._replace(others=row.others[:1] + row.others[2:]).is_alone)
        self.assertFalse(row._replace(others=row.others[:1]).is_alone, "one reader is no judge")
        self.assertFalse(row._replace(ours="refused - Macro").is_alone)
        # Of a file that boardnet refuses only what the specification says counts.
        self.assertEqual(row._replace(ours="refused - Macro").otherwise, ["d"])


class Plants(common.Case):
    def test_each_changes_its_rule_alone(self):
        for name, kind, data, wanted in (
            ("radius", "copper", b"%ADD10C,0.5X0.2*%%ADD11R,1X2*%", b"%ADD10C,1.0X0.2*%%ADD11R,1X2*%"),
            ("radius", "drill", b"T1C0.8\nT1\n", b"T1C1.6\nT1\n"),
            ("turn", "copper", b"G02X1Y0I1J0D01*G3*G02*G01*G20*", b"G03X1Y0I1J0D01*G2*G03*G01*G20*"),
            ("turn", "copper", b"%AMM*\n21,1,4,2,0,0,30*\n1,1,2,3,0*\n%", b"%AMM*\n21,1,4,2,0,0,-30*\n1,1,2,3,0*\n%"),
            ("turn", "drill", b"G02X1Y1\n", b"G02X1Y1\n"),
            ("obround", "copper", b"%ADD10O,1X2*%%ADD11C,1*%", b"%ADD10R,1X2*%%ADD11C,1*%"),
            ("obround", "drill", b"X1.0Y2.0G85X3.0\nX4.0\n", b"X1.0Y2.0\nX4.0\n"),
        ):
            self.assertEqual(plants.PLANTS[name](data, kind), wanted, name)

    def test_the_columns_see_each(self):
        """A fault in the rules makes a small file be read otherwise than its column says."""
        program, every = common.program(), {rule.name: rule for rule in rules.rules()}
        for plant, name in (
            ("radius", "AD-no-zero"),
            ("turn", "arc-G75"),
            ("turn", "am-centre-rot"),
            ("obround", "O-tall"),
            ("obround", "drill-slot"),
            ("radius", "drill-hit"),
        ):
            (kept,) = table.rows_of([every[name]], ours.Ours(program), [])
            self.assertTrue(kept.is_kept, (name, kept.ours))
            (seen,) = table.rows_of([every[name]], ours.Ours(program, plant), [])
            self.assertFalse(seen.is_kept, (plant, name, seen.ours))

    def test_random_files_show_each(self):
        """Each random file of a form that knows the rule has places at which a faulty rule says otherwise."""
        reader = ours.Ours(common.program())
        for plant, form in (
            ("radius", "plain"),
            ("radius", "drill"),
            ("turn", "clear"),
            ("turn", "changed"),
            ("obround", "plain"),
            ("obround", "macros"),
            ("obround", "drill"),
        ):
            file = files.File("n", "drill" if form == "drill" else "copper", random_files.of(form, "1 0"))
            spoilt = ours.Ours(common.program(), plant)
            work = compare.Work(file, spoilt.reading(file.data, file.kind), spoilt, compare.Asked(200, 1))
            work.ask_ours()
            true = reader.states(reader.reading(file.data, file.kind), file.kind, work.places)
            other = [one for one, two in zip(work.bounds, true) if one[0] == one[1] != two[0] == two[1]]
            self.assertTrue(other, (plant, form))


class Places(common.Case):
    def test_pieces(self):
        capsule, disc, area = places.pieces_of(FLAT)
        self.assertEqual(capsule, places.Piece(5_000_000, [(0, 0), (50_000_000, 0)]))
        self.assertEqual(disc, places.Piece(5_000_000, [(-70_000_000, 20_000_000)] * 2))
        self.assertEqual(
            area, places.Piece(places.AREA, [(0, 100_000_000), (30_000_000, 100_000_000), (30_000_000, 140_000_000)])
        )
        self.assertEqual(area.length, 120_000_000)
        self.assertEqual(places.box_of([capsule, disc, area]), (-7_500, -500, 5_500, 14_500))

    def test_near_are_as_far_off_as_said(self):
        pieces = places.pieces_of(FLAT)
        found = places.near(random.Random(1), pieces, 600)
        self.assertEqual(len(found), 600)
        on = 0
        for x, y in found:
            p = (x / 1000, y / 1000)
            off = min(
                abs(camv.apart(p, (0, 0), (5, 0)) - 0.5),
                abs(camv.apart(p, (-7, 2), (-7, 2)) - 0.5),
                *(camv.apart(p, a, b) for a, b in (((0, 10), (3, 10)), ((3, 10), (3, 14)), ((3, 14), (0, 10)))),
            )
            self.assertLessEqual(off, 0.062, p)
            on += off < 0.0015
        self.assertLess(on, 30, "beside a corner one may lie on the next edge")
        self.assertEqual(places.near(random.Random(1), [], 5), [])

    def test_within_corners(self):
        """Off both edges of a corner, by half a step each, whichever way the contour runs."""
        for corners in (
            [(0, 0), (10**7, 0), (10**7, 10**7), (0, 10**7)],
            [(0, 10**7), (10**7, 10**7), (10**7, 0), (0, 0)],
        ):
            for _ in range(40):
                off = [
                    min(v, 1_000 - v) for v in places.in_corner(random.Random(_), places.Piece(places.AREA, corners))
                ]
                self.assertTrue(all(1 <= v <= 30 for v in off), off)

    def test_anywhere(self):
        pieces = places.pieces_of(FLAT)
        for x, y in places.anywhere(random.Random(1), pieces, 300):
            self.assertTrue(-8_500 <= x <= 6_500 and -1_500 <= y <= 15_500)
        self.assertEqual(places.told([(999_999, 0), (0, -1_000_000)]), [(999_999, 0)])

    def test_holes(self):
        data = b"M48\nMETRIC\nT1C1.0\nT02C0.5\n%\nT1\nX5.0Y3.0\nX9.0\nT2\nY1.5G85X2.0\nG00X0.0Y0.0\nX5\nM30\n"
        one, two, slot, move, none = places.holes_of(data)
        self.assertEqual(
            (one, two),
            (places.Piece(5_000_000, [(50_000_000, 30_000_000)]), places.Piece(5_000_000, [(90_000_000, 30_000_000)])),
        )
        self.assertEqual(slot, places.Piece(2_500_000, [(90_000_000, 15_000_000), (20_000_000, 15_000_000)]))
        self.assertEqual((move.corners, none.corners), ([(0, 0)], [(0, 0)]))
        self.assertEqual(places.holes_of(b"INCH\nX1.0Y0.5\n")[0].corners, [(254_000_000, 127_000_000)])


class Files(common.Case):
    def test_kinds(self):
        for data, kind in (
            (HEAD + b"M02*", "copper"),
            (b"; a\nM48\nM30\n", "drill"),
            (b"\nM48\n", "drill"),
            (b"C M48\n999\n", ""),
            (b"G04 a*\n%MOIN*%\n", "copper"),
            (b"text", ""),
        ):
            self.assertEqual(files.kind_of(data), kind, data)

    def test_each_content_once(self):
        self.write("a/one.gbr", HEAD + b"M02*")
        self.write("a/b/two.gbr", HEAD + b"M02*")
        self.write("a/hole.drl", "M48\nM30\n")
        self.write("a/readme.txt", "text")
        with zipfile.ZipFile(self.path("a", "z.zip"), "w") as archive:
            archive.writestr("in/three.gbr", HEAD + b"D10*M02*")
            archive.writestr("in/hole.drl", "M48\nM30\n")
        found = [(os.path.relpath(it.name, self.scratch), it.kind) for it in files.files_of([self.path("a")])]
        self.assertEqual(found, [("a/hole.drl", "drill"), ("a/one.gbr", "copper"), ("a/z.zip!in/three.gbr", "copper")])

    def test_random_ones(self):
        for form in random_files.FORMS:
            some = [random_files.of(form, str(seed)) for seed in range(6)]
            self.assertEqual(some, [random_files.of(form, str(seed)) for seed in range(6)])
            self.assertEqual(len(set(some)), 6)
            self.assertEqual({files.kind_of(data) for data in some}, {"drill" if form == "drill" else "copper"})
        text = b"".join(random_files.of("changed", str(seed)) for seed in range(40))
        for word in (
            rb"G0[23]X",
            rb"%LPC",
            rb"%SRX",
            rb"%LR30",
            rb"G36",
            rb",[\d.]+X[\d.]+X[\d.]+\*",
            rb"%ADD\d+P,",
            rb"%MOIN",
            rb"G54D",
        ):
            self.assertRegex(text, word)
        self.assertRegex(b"".join(random_files.of("drill", str(seed)) for seed in range(20)), rb"(?s)G85.*M15\nG01")
        # Each file flashes each kind of aperture of its form, or has a slot.
        for form, words in (
            ("plain", (rb",", rb"R,", rb"O,")),
            ("macros", (rb"O,", rb"Mac")),
            ("clear", (rb"O,", rb"P,", rb"G0[23]X")),
            ("changed", (rb"P,",)),
            ("drill", (rb"G85",)),
        ):
            for word, seed in itertools.product(words, range(12)):
                self.assertRegex(random_files.of(form, str(seed)), word, (form, seed))

    def test_random_ones_are_taken(self):
        reader = ours.Ours(common.program())
        for form, wanted in (
            ("plain", {"exact"}),
            ("macros", {"exact", "flattened", "mended", "between"}),
            ("drill", {"exact"}),
        ):
            for seed in "01":
                kind = "drill" if form == "drill" else "copper"
                self.assertIn(reader.reading(random_files.of(form, seed), kind).how, wanted, (form, seed))


class Smallest(common.Case):
    def test_parts(self):
        self.assertEqual(
            smallest.parts_of(b"%MOMM*%\nD10*X1Y1\nD03* %AMA*\n1,1,2,0,0*%", "copper"),
            [b"%MOMM*%", b"D10*", b"X1Y1\nD03*", b"%AMA*\n1,1,2,0,0*%"],
        )
        self.assertEqual(smallest.parts_of(b"M48\r\nX1\n", "drill"), [b"M48", b"X1"])

    def test_only_what_it_takes_is_left(self):
        parts = [b"%d" % n for n in range(100)]
        asked = []
        wanted = {b"3", b"58", b"97"}
        left = smallest.smallest(parts, lambda some: asked.append(some) or wanted <= set(some))
        self.assertEqual(left, [b"3", b"58", b"97"])
        self.assertLessEqual(len(asked), smallest.MOST_TRIALS)
        # What hangs together with something else goes once that went.
        hang = lambda some: b"1" in some and (b"5" in some or b"6" not in some)
        self.assertEqual(smallest.smallest([b"%d" % n for n in range(9)], hang), [b"1"])
        self.assertEqual(smallest.smallest(parts, lambda some: False), parts)
        self.assertEqual(smallest.smallest([b"a"], lambda some: True), [b"a"])


class Counting(common.Case):
    def work(self, bounds):
        return types.SimpleNamespace(bounds=bounds, places=[(k, 0) for k in range(len(bounds))])

    def test_sorts(self):
        for bounds, state, sort in (
            ((1, 1), COPPER, compare.SAME_IN),
            ((0, 0), BARE, compare.SAME_OUT),
            ((0, 0), COPPER, compare.DIFFER),
            ((1, 1), BARE, compare.DIFFER),
            ((0, 1), COPPER, compare.BETWEEN),
            ((1, 1), NEAR, compare.CLOSE),
            ((0, 1), NEAR, compare.CLOSE),
            ((1, 1), None, compare.UNSEEN),
        ):
            self.assertEqual(compare.sort_of(bounds, state), sort, (bounds, state))

    def test_judged(self):
        counts, differ = compare.judged(self.work([(1, 1), (0, 0), (0, 1)]), Told([COPPER, COPPER, BARE], ""))
        self.assertEqual(differ, [compare.Differing((1, 0), 0, 1)])
        self.assertEqual(counts, {compare.SAME_IN: 1, compare.DIFFER: 1, compare.BETWEEN: 1})

    def test_alone(self):
        work = self.work([(1, 1)] * 4)
        states = {"a": [0, 0, 0, 1], "b": [0, 1, -1, 1], "c": [0, 0, None, 1]}
        differ = {
            name: [compare.Differing((k, 0), 1, 0) for k, state in enumerate(some) if state == 0]
            for name, some in states.items()
        }
        self.assertEqual(compare.alone(work, states, differ), [(0, 0)])
        self.assertEqual(compare.alone(work, states, {**differ, "b": []}), [], "settled by a second look")
        self.assertEqual(compare.alone(work, {"a": states["a"]}, differ), [], "one reader alone is no judge")

    def test_second_look(self):
        file = files.File("n", "copper", b"")
        some = [compare.Differing((k, 0), 1, 0) for k in range(30)]
        for holds, left, looks in (
            (lambda x: x != 3, 29, 30),
            (lambda x: True, 30, compare.MOST_AGAIN),
            (lambda x: False, 0, 30),
        ):
            asked, counts = [], Counter({compare.DIFFER: 30})
            again = lambda data, kind, some: asked.extend(some) or [0 if holds(place[0]) else -1 for place in some]
            found = compare.settled(types.SimpleNamespace(again=again), file, counts, some)
            self.assertEqual(
                (len(found), len(asked), counts[compare.DIFFER], counts[compare.SETTLED]),
                (left, looks, left, 30 - left),
            )

    def test_lines(self):
        row = compare.Row(
            "f", "copper", "exact", pieces=3, places=9, counts={"a": Counter({compare.SAME_IN: 8, compare.DIFFER: 1})}
        )
        self.assertEqual(totals.line_of(row), "")
        differs = row._replace(differ={"a": [compare.Differing((1, 2), 1, 0)]}, alone=[(1, 2)])
        self.assertIn(
            "a differs at 1 of 9 places, as (1, 2) um: boardnet 1, it 0; ALL READERS DIFFER at 1 places",
            totals.line_of(differs),
        )
        self.assertIn("refused: Macro", totals.line_of(compare.Row("f", "copper", "refused", "Macro")))
        self.assertIn(
            "a: 1 files, 9 places compared (8 copper, 0 none), 1 differ in 1 files", "\n".join(totals.totals([differs]))
        )


class Smaller(common.Case):
    """A file in which one word is read otherwise, with readers made here."""

    def test_what_both_have_stays(self):
        data = HEAD + b"%ADD10C,1*%\nD10*\nX1Y1D03*\nX2Y2D03*\nG04 a*\nM02*\n"
        took = []
        program = types.SimpleNamespace(
            bounds_at=lambda data, *rest: took.append(rest) or ((1, 1) if data.endswith(b"M02*\n") else None)
        )
        reader = types.SimpleNamespace(name="gerbv", again=lambda data, *_: [0 if b"X2" in data else 1])
        file, it = files.File("n", "copper", data), compare.Differing((2, 2), 1, 0)
        self.assertEqual(compare.smaller(file, "exact", reader, it, program), b"X2Y2D03*\nM02*\n")
        self.assertEqual(set(took), {("copper", (2, 2), True)})
        self.assertEqual(compare.smaller(file, "between", reader, it._replace(other=1), program), b"")

    def test_one_place(self):
        reader = ours.Ours(common.program())
        data = HEAD + b"%ADD10C,1*%\nD10*\nX5000000Y0D03*\nM02*\n"
        for is_exact in (True, False):
            self.assertEqual(reader.bounds_at(data, "copper", (5_000, 0), is_exact), (1, 1))
            self.assertEqual(reader.bounds_at(data, "copper", (5_600, 0), is_exact), (0, 0))
            self.assertIsNone(reader.bounds_at(data.replace(b"\nD10", b"\nD11"), "copper", (0, 0), is_exact))


class Others(common.Case):
    def test_tolerance_of_klayout(self):
        draw = b"X5000000Y0D02*\nG03X-5000000Y0I-3000000J4000000D01*\n"
        for data, wanted in (
            (HEAD + b"X1Y1I9J9D01*", 1_000),
            (HEAD + draw, 25_500),
            (HEAD.replace(b"MM*", b"IN*") + draw, 623_300),
        ):
            self.assertLess(abs(klayout.tolerance(data) - wanted), 20, data)

    def test_view_of_gerbv(self):
        view = gerbv.view_of([(-13_001, 0), (12_000, 250)])
        self.assertEqual(view, gerbv.View(-13_510, -500, 10, 2_602, 126))
        self.assertEqual((view.pixel((-13_001, 0)), view.pixel((-13_510, -500))), ((50, 50), (0, 0)))
        self.assertEqual(gerbv.view_of([(0, 0), (400_000, 0)]).pitch, 50)
        self.assertEqual([gerbv.inches(it) for it in (25_400, -12_700, 1)], ["1.000000", "-0.500000", "0.000039"])

    def test_drawing_of_camv(self):
        svg = """<svg viewBox="0 0 40 35"><line x1="2" y1="20" x2="8" y2="20" stroke-width="1"/><circle cx="15" cy="20" r="2"/>
<polygon points="20,20 24,20 24,16"/><path d="M 30 20 A 4 4 0 0 0 34 24" stroke-width="1"/></svg>"""
        cells = camv.Cells(camv.shapes_of(svg))
        for p, state in (
            ((5, 10), COPPER),
            ((5, 10.4), COPPER),
            ((5, 10.51), NEAR),
            ((5, 11), BARE),
            ((8.4, 10), COPPER),
            ((15, 11.9), COPPER),
            ((15, 12.2), BARE),
            ((23, 12), COPPER),
            ((21, 12), BARE),
            ((31.17, 7.17), COPPER),
            ((34, 10), BARE),
        ):
            self.assertEqual(cells.state(p), state, p)
        mask = '<svg viewBox="0 0 9 15"><mask><rect x="0" y="0" width="8" height="8" fill="#FFFFFF"/><circle cx="4" cy="4" r="2" fill="#000000"/></mask><rect x="0" y="0" width="9" height="9"/></svg>'
        cells = camv.Cells(camv.shapes_of(mask))
        self.assertEqual([cells.state(p) for p in ((4, 6), (7, 9), (8.5, 6))], [BARE, COPPER, BARE])

    def test_moved_for_camv(self):
        data = HEAD + b"%ADD10C,1*%\nG04 X1Y1*\nX-5000000Y0D02*\n"
        self.assertEqual(
            camv.moved(data),
            (HEAD + b"%ADD10C,1*%X500000000Y500000000D02*\nG04 X1Y1*\nX495000000Y500000000D02*\n", 500.0),
        )
        self.assertEqual(camv.moved_holes(b"METRIC\nX1.5Y-2.0\n"), (b"METRIC\nX501.500000Y498.000000\n", 500.0))
        self.assertEqual(camv.moved_holes(b"METRIC\nX15Y20\n")[1], 0.0)

    def test_runs(self):
        say = "import sys, time; print('one', flush=True); print('two', file=sys.stderr, flush=True); "
        for more, limits, wanted in (
            ("", (9,), "one\ntwo\n"),
            ("time.sleep(9)", (1,), "stopped after 1 seconds"),
            ("time.sleep(9)", (5, b"two"), "one\ntwo\n"),
        ):
            begun = time.monotonic()
            self.assertEqual(others.run([sys.executable, "-c", say + more], self.scratch, *limits), wanted)
            self.assertLess(time.monotonic() - begun, 4)

    def test_messages(self):
        text = "** (process:1): CRITICAL **: Unknown code at line 3\n12:00:00.1: Unknown extension found %TF% 1\n(process:2): nothing"
        self.assertIn("Unknown code", gerbv.said_of(text))
        self.assertNotIn("line 3", gerbv.said_of(text))


class Ours(common.Case):
    def test_netlist(self):
        self.assertEqual(
            ours.netlist([(5, -250)]).split(b"\n")[1], b"327N/C                                A01X+000005Y-000250"
        )

    def test_kinds(self):
        for line, kind in (
            ("boardnet: c.gbr: Gerber 12 Macro at command 3, byte 2", "Macro"),
            ("boardnet: d.drl: drill 2 BadLine at line 3, byte 2", "BadLine"),
            ("boardnet: out of memory", "boardnet: out of memory"),
        ):
            self.assertEqual(ours.kind_of(line), kind)

    def test_plain(self):
        self.assertEqual(
            ours.plain(b"%TF.FileFunction,Copper,L2,Bot*%%TF.Part,Single*%", "copper"),
            b"%TF.Part,Other*%%TF.Part,Single*%",
        )
        self.assertEqual(
            ours.plain(b"; #@! TF.FileFunction,MixedPlating,1,2\n;TYPE=PLATED\nT1C1.0\n", "drill"), b";\n;\nT1C1.0\n"
        )


class Netlists(common.Case):
    TEXT = """P  UNITS CUST 0
317GND              J1    -1    D0400PA00X+010000Y-002000X0700Y0700R000S0
327/SIG             R1    -2          A01X+000500Y+000250X0400Y0400R000S2
999
"""

    def test_columns(self):
        one, two = netlists.records_of(self.TEXT)
        self.assertEqual(one, netlists.Record("GND", "J1-1", 0, (254_000_000, -50_800_000)))
        self.assertEqual(two, netlists.Record("/SIG", "R1-2", 1, (12_700_000, 6_350_000)))

    def test_pads(self):
        text = "%TO.P,J1,1*%X0Y0D03*\n%TO.P,J1,2*%X1Y0D03*X2Y0D03*\n%TD*%X3Y0D03*"
        self.assertEqual(netlists.pads_of(text), {"J1-1": 1, "J1-2": 2})

    def test_pads_by_name(self):
        records, flash = netlists.records_of(self.TEXT), "%TO.P,{}*%X0Y0D03*\n"
        one, two, three = (flash.format(pin) for pin in ("J1,1", "R1,2", "R1,3"))
        for layers, unnamed, more in (([one + two, one], 0, 0), ([one + two + three, one], 1, 0), ([one, two], 0, 0)):
            told = netlists.pads(records, layers)
            self.assertEqual(
                (told["pads without a record"], told["pads with more records than flashes"]), (unnamed, more)
            )
        self.assertEqual(netlists.pads(records * 2, [one + two])["pads with more records than flashes"], 2)
        self.assertEqual(netlists.pads(records * 2, [one * 2 + two * 2])["pads with more records than flashes"], 0)

    def test_points(self):
        records = netlists.records_of(self.TEXT)
        points = ["point 0 1 1 0 0", "point 1 1 2 0 0", "point 2 2 1 1 -"]
        spots = ["spot 0 254000000 -50800000", "spot 1 254000000 -50800000", "spot 2 12700000 6350000"]
        self.assertEqual(netlists.amiss(records, "\n".join(points + spots), 2), 0)
        for k, other in itertools.product(range(3), ("point 9 9 9 9 9",)):
            self.assertGreater(
                netlists.amiss(records, "\n".join(points[:k] + points[k + 1 :] + spots), 2), 0, (k, other)
            )
        self.assertEqual(netlists.amiss(records, "\n".join(points + spots[:2] + ["spot 2 12700000 6350001"]), 2), 1)


class Command(common.Case):
    def test_help_and_no_program(self):
        bench = os.path.join(BENCHES, "readers")
        status, out, _ = self.run_words([bench, "--help"])
        self.assertEqual(status, 0)
        with open(bench, encoding="utf-8") as file:
            options = set(re.findall(r'"(--[a-z-]+)"', file.read())) - {"--help"}
        self.assertGreater(len(options), 8)
        for name in options:
            self.assertIn(f"  {name}", out)
        status, _, notes = self.run_words([bench, "--program", "none/there"])
        self.assertEqual((status, "wants the built program" in notes), (1, True))
        # A path that is not there is told before minutes have gone.
        self.assertEqual(
            self.run_words([bench, "none", "--program", sys.executable])[::2],
            (1, "benches/readers: none is not there\n"),
        )
