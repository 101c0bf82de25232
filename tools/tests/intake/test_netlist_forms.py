"""Netlists in the forms of several tools, each with the same points as lines that `check` takes; and lines that stay as they are."""
import random
import unittest

from boardnet_show.formats import ipc356
from boardnet_show.formats.report import Report
from boardnet_show.intake.mends import netlist_forms, netlist_mends, table
from tests.fixtures import common, made

UNITS = "P  UNITS CUST 1"
ONE = made.record("A", "U1.1", 1, 2)
VIA = made.record("A", "VIA", 1, 2, "00").replace("317", "307").replace("A00", "A02")
NOWHERE = VIA.replace("A02", "   ")
BACK = "027" + " " * 35


def with_code(line, code):
    return code + line[3:]


def behind(text, code="027"):
    """A continuation with nothing before the column of its access code."""
    return f"{code}{'':35}{text}"


SPAN = f"027{'':35}L02L05"
# The kind, the lines as a tool writes them, and as `check` takes them; where a line goes, a comment.
FORMS = [
    (table.METRIC, ["P  UNITS SI", ONE], [UNITS, ONE]),
    (table.METRIC, ["P\tUNITS SI  \r", ONE], ["P\tUNITS CUST 1  \r", ONE]),
    (table.VIA, [UNITS, VIA], [UNITS, with_code(VIA, "317")]),
    (table.VIA, [UNITS, VIA, "C", ONE], [UNITS, with_code(VIA, "317"), "C", ONE]),
    (table.CONTINUED, [UNITS, ONE, behind("A03X+000001Y+000002")], [UNITS, ONE, ONE[:38] + "A03X+000001Y+000002"]),
    (
        table.CONTINUED,
        [UNITS, ONE, with_code(ONE, "027").replace("A01", "A02")],
        [UNITS, ONE, ONE.replace("A01", "A02")],
    ),
    (
        table.CONTINUED,
        [UNITS, with_code(ONE, "317"), behind("A02", "017")],
        [UNITS, with_code(ONE, "317"), with_code(ONE, "317").replace("A01", "A02")],
    ),
    (
        table.CONTINUED,
        [UNITS, ONE + "X0100Y0200R000S1", behind("A02X+000001Y+000002X0300Y0000R090")],
        [UNITS, ONE + "X0100Y0200R000S1", ONE[:38] + "A02X+000001Y+000002X0300Y0000R090"],
    ),
    (table.CONTINUED, [UNITS, ONE, with_code(ONE, "027")], [UNITS, ONE, "C " + with_code(ONE, "027")]),
    (table.CONTINUED, [UNITS, ONE, "027\r"], [UNITS, ONE, "C 027\r"]),
    (table.NO_POINT, [UNITS, NOWHERE, ONE], [UNITS, "C " + NOWHERE, ONE]),
    (
        table.NO_POINT,
        [UNITS, "390SOMETHING", "088  L02", ONE, "099"],
        [UNITS, "C 390SOMETHING", "C 088  L02", ONE, "C 099"],
    ),
    (table.PAPER, ["\x0c" + UNITS, ONE, "\x0c\r", ONE + "\x0c\r"], [UNITS, ONE, "\r", ONE + "\r"]),
    (table.PAPER, [UNITS, ONE, "999", "\x1a\x1a"], [UNITS, ONE, "999", ""]),
    (table.LAYER, [UNITS, ONE, ONE.replace("A01", "A64")], [UNITS, ONE, ONE.replace("A01", "A06")]),
    (table.LAYER, [UNITS, VIA.replace("A02", "A16"), ONE], [UNITS, with_code(VIA, "317").replace("A02", "A06"), ONE]),
]
SPANS = [
    ([UNITS, VIA, SPAN], [with_code(VIA, "317"), with_code(VIA, "317").replace("A02", "A05")]),
    ([UNITS, VIA.replace("A02", "A05"), SPAN], [with_code(VIA, "317").replace("A02", "A05"), with_code(VIA, "317")]),
    ([UNITS, NOWHERE, SPAN], [with_code(VIA, "317"), with_code(VIA, "317").replace("A02", "A05")]),
    (
        [UNITS, NOWHERE, f"027{'':38}X+001000Y+002000  L2 - L5\r"],
        [with_code(VIA, "317"), with_code(VIA, "317").replace("A02", "A05")],
    ),
]
# Lines that stay as they are, which `check` refuses, or takes as it takes them.
STAYS = {
    "a continuation of another pin": [ONE, with_code(made.record("A", "U1.2", 1, 2, "02"), "027")],
    "a continuation of another name": [ONE, with_code(made.record("B", "U1.1", 1, 2, "02"), "027")],
    "a continuation behind no record": ["C a note", behind("A02X+000001Y+000002")],
    "a continuation behind a comment": [ONE, "C a note", behind("A02X+000001Y+000002")],
    "a continuation of other columns": [ONE, behind(" A02X+000001Y+000002")],
    "a continuation with half a place": [ONE, behind("A02X+000001")],
    "a continuation with other words": [ONE, behind("") + "both sides"],
    "a continuation with an unknown span": [with_code(ONE, "317"), behind("02-05")],
    "a span of a through hole": [with_code(ONE, "317"), SPAN],
    "a via whose layer is not of its span": [VIA.replace("A02", "A03"), SPAN.replace("L02", "L04")],
    "a via with a span of another place": [VIA, SPAN.replace(" " * 3 + "L02", "A02") + "X+000009Y+000009"],
    "a span from below": [VIA, SPAN.replace("L02L05", "L05L02")],
    "an unknown unit": [ONE, "P  UNITS MM"],
    "a via on no layer, the only point of its net there": [ONE, NOWHERE.replace("X+001000", "X+001001")],
    "a via on no layer, where another net has a point": [ONE, with_code(NOWHERE.replace("A ", "B ", 1), "307")],
    "a via on no layer, of which others say none": [NOWHERE, NOWHERE],
    "a via of half a layer": [NOWHERE[:38] + "A" + NOWHERE[39:]],
    "an unknown code": [ONE, with_code(ONE, "337")],
    "a sign for printers within": [ONE[:4] + "\x0c" + ONE[5:]],
    "a text behind ^Z": [ONE, "\x1a" + ONE],
    "a record between ^Z and the end": [ONE, "\x1a", ONE, "\x1a"],
    "^Z before the end": [ONE, "\x1a"],
    "two codes over the layers": [ONE, ONE.replace("A01", "A16"), ONE.replace("A01", "A32")],
    "a code over the layers, and the last one": [ONE, ONE.replace("A01", "A16"), ONE.replace("A01", "A06")],
    "a code over the layers that may count them": [ONE, ONE.replace("A01", "A08")],
}


def file_of(lines):
    return ("\n".join(lines if "999" in lines else [*lines, "999", ""])).encode("utf-8", "surrogateescape")


class Forms(unittest.TestCase):
    def told(self, lines, layers=6):
        """The lines as they are written, and the kinds of mends; mending once more changes nothing."""
        data, mends = netlist_mends.mended(file_of(lines), layers)
        self.assertEqual(netlist_mends.mended(data, layers), (data, []), lines)
        return data, [it.kind for it in mends]

    def test_forms(self):
        for kind, lines, wanted in FORMS:
            data, kinds = self.told(lines)
            self.assertEqual(data, file_of(wanted))
            self.assertEqual(set(kinds) - {table.VIA}, {kind} - {table.VIA}, lines)

    def test_all_kinds(self):
        """Each kind of netlists' mends has a row here, or tests of its own."""
        kinds = [row.kind for row in table.ROWS]
        self.assertEqual(
            {*kinds[kinds.index(table.ALIAS) :]} - {table.ALIAS, table.NAME, table.CHARACTERS},
            {row[0] for row in FORMS},
        )

    def test_spans(self):
        for lines, wanted in SPANS:
            data, kinds = self.told(lines)
            written = [line.rstrip()[:57] for line in data.decode().split("\n")[1:3]]
            self.assertEqual((written, kinds), (wanted, [table.VIA, table.CONTINUED]), lines)

    def test_stays(self):
        for why, lines in STAYS.items():
            data, _ = self.told([UNITS, *lines])
            # A via has its code alone written anew.
            self.assertIn(lines[-1][3:], [line[3:] for line in data.decode().split("\n")], why)

    def test_refused(self):
        """`check` refuses each of them by its line."""
        program = common.program()
        for why, lines in STAYS.items():
            with self.subTest(why):
                case = made.Case()
                case.setUp()
                case.board(
                    {
                        "m.json": made.manifest(["top.gbr"] * 6),
                        "top.gbr": made.gerber(),
                        "n.ipc": self.told([UNITS, *lines])[0],
                    }
                )
                status, _, notes = case.run_words([program, "check", "m.json"], case.path("board"))
                case.doCleanups()
                self.assertEqual((status, "n.ipc: netlist" in notes), (3, True), notes)

    def test_a_component_is_no_span(self):
        """The pin L2 of a coil L1 says no layers."""
        coil = made.record("A", "L1.L2", 1, 2, "00").replace("317", "307").replace("A00", "A02")
        data, _ = self.told([UNITS, coil, with_code(coil, "027").replace("A02", "A03")])
        self.assertEqual([it.access for it in ipc356.places(data)], [2, 3])

    def test_a_netlist_that_goes_on(self):
        """Signs behind the end are taken away, records are not."""
        lines = [UNITS, ONE, "999", with_code(ONE, "307")]
        self.assertEqual(self.told(lines), (file_of(lines), []))
        # A via without a place says no point that another record has.
        self.assertEqual(self.told([UNITS, "307A B"]), (file_of([UNITS, "307A B"]), []))


class Names(unittest.TestCase):
    """Names that `check` does not take are read by their columns, and stay as distinct as they are."""

    def told(self, *lines):
        data, mends = netlist_mends.mended(file_of([UNITS, *lines]), 6)
        self.assertEqual(netlist_mends.mended(data, 6), (data, []))
        names = [it.name for it in ipc356.records(data)]
        return [ipc356.aliases(data).get(name, name) for name in names], [it.kind for it in mends], data

    def record(self, name, component="U1", width=14):
        return f"327{name:<{width}}   {component:<6}-1          A01X+001000Y+002000"

    def test_two_codings(self):
        """Names of the same characters that are written otherwise may be one net: refused, but for UTF-8 and Latin-1."""
        rows = (
            (["GR\\u00D6", "GR\u00d6"], True),
            (["GR\\u00D6", "GR\\u00d6"], True),
            (["GRO\u0308", "GR\u00d6"], True),
            (["GR\\U000000D6", "GR\\u00D6"], True),
            (["GR\u00d6", "GR\u00dc", "GR\udcd6", "GR\\u00D8", "GR\\u12", "GR\\U00D6"], False),
        )
        for names, is_refused in rows:
            aliases = [f"P  NNAME{n}  {name}" for n, name in enumerate(names, 1)]
            for its in (
                map(self.record, names),
                [*aliases, *(self.record(f"NNAME{n + 1}") for n in range(len(names)))],
            ):
                why = netlist_mends.unclear(file_of([UNITS, *its]), 2)
                self.assertEqual("are the same characters, written in two ways" in why, is_refused, (names, why))

    def test_an_alias_without_its_line(self):
        """A line that has it in other letters or digits may be its own: refused."""
        for line, is_said in (
            ("P  NNAME1  A", True),
            ("P  NNAME1  NNAME1", True),
            ("P  nname1  A", False),
            ("P  NNAME01  A", False),
            ("P  NNAME1  ", True),
            ("C  NNAME1  A", True),
            ("P  NNAME11  A", True),
        ):
            why = netlist_mends.unclear(file_of([UNITS, line, self.record("NNAME1"), self.record("B")]), 2)
            self.assertEqual("no line says what NNAME1 stands for" in why, not is_said, line)

    def test_a_character_that_is_cut(self):
        """Columns that end within a character are no whole name: no alias, so that it stays refused."""
        for name, has_alias in (
            (b"A" * 13 + b"\xc3", False),
            (b"A" * 13 + b"\xe6", False),
            (b"A" * 12 + b"\xc3", True),
        ):
            row = self.record("x" * 14).encode().replace(b"x" * 14, name.ljust(14))
            data = netlist_mends.mended(file_of([UNITS]).replace(b"999", row + b"\n999"), 6)[0]
            self.assertEqual(b"NNAME" in data, has_alias, name)

    def test_blanks(self):
        names, kinds, data = self.told(
            self.record("MY NET"), self.record("MY_NET"), self.record(" MY NET"), self.record("MY  NET")
        )
        self.assertEqual((names, kinds), (["MY NET", "MY_NET", "MY NET", "MY  NET"], [table.NAME]))
        self.assertEqual(
            data.decode().split("\n")[-5:],
            [self.record("NNAME2"), "P  NNAME1  MY NET", "P  NNAME2  MY  NET", "999", ""],
        )
        self.assertEqual(netlist_mends.unclear(file_of([UNITS, self.record("MY NET")])), "")

    def test_an_alias_that_is_taken(self):
        names, _, data = self.told(
            "P  NNAME1  MY NET", self.record("NNAME3"), self.record("NNAME1"), self.record("MY NET")
        )
        self.assertEqual(names, ["NNAME3", "MY NET", "MY NET"])
        self.assertEqual(len(set(it.name for it in ipc356.records(data))), 2)

    def test_letters(self):
        """Columns of bytes, of characters, of Latin-1; letters in a component alone."""
        rows = (
            self.record("GR\u00d6SSE", width=13),
            self.record("GR\u00d6SSE"),
            self.record("GR\udcd6SSE"),
            self.record("GR\u00dcSSE"),
        )
        self.assertEqual(self.told(*rows)[0], ["GR\u00d6SSE"] * 3 + ["GR\u00dcSSE"])
        self.assertEqual(len({it.name for it in ipc356.records(self.told(*rows)[2])}), 2)
        names, _, data = self.told("P  NNAME1  GR\udcd6SSE", self.record("NNAME1"), rows[1])
        self.assertEqual((names, len({it.name for it in ipc356.records(data)})), (["GR\u00d6SSE"] * 2, 1))
        names, kinds, data = self.told(self.record("GND", "\u00dc1"))
        self.assertEqual((names, kinds, ipc356.records(data)[0].component), (["GND"], [table.CHARACTERS], "?1"))

    def test_stays(self):
        for line in (
            self.record("A\tB"),
            self.record("A\x01B"),
            self.record("GR\u00d6SSE", width=12),
            self.record("A B")[:-1],
            self.record("A B").replace("A01", " A1"),
            self.record("\u00c4", "\u00d6")[:-3],
        ):
            self.assertEqual(self.told(line)[2], file_of([UNITS, line]), line)

    def test_no_end(self):
        """A file that is cut off has no place for aliases, and stays."""
        data = f"{UNITS}\n{self.record('A B')}\n".encode()
        self.assertEqual(netlist_mends.mended(data, 6), (data, []))

    def test_an_alias_of_a_via(self):
        """Two aliases of one name are one net, also where a via alone has the second."""
        via = with_code(self.record("NNAME2"), "307")
        names, kinds, data = self.told("P  NNAME1  a whole name", "P  NNAME2  a whole name", self.record("NNAME1"), via)
        self.assertEqual((names, {it.name for it in ipc356.records(data)}), (["a whole name"] * 2, {"NNAME1"}))

    def test_names_that_run_on(self):
        """Two names of which the columns have the same are refused; one such name is read as ever."""
        long = "A" * 14
        rows = [
            self.record(long + "1", width=15).replace("   ", "  ", 1),
            self.record(long + "2", width=15).replace("   ", "  ", 1),
        ]
        self.assertEqual(
            netlist_mends.unclear(file_of([UNITS, *rows]), 2),
            f"{long}1 and {long}2 run on behind their columns, and are one name within them",
        )
        for some in (rows[:1], rows[:1] * 2, [self.record(long)] * 2):
            self.assertEqual(netlist_mends.unclear(file_of([UNITS, *some]), 2), "", some)
        # The columns are the whole of another name, or have a blank where it goes on.
        for one, other, words in (
            (long, long + "1", f"{long}1 runs on behind its columns, and is {long} within them"),
            (long + " 1", long + " 2", f"{long} 1 and {long} 2 run on"),
            (long[1:] + " 1", long[1:] + " 2", f"{long[1:]} 1 and {long[1:]} 2 run on"),
        ):
            its = [self.record(name, width=17)[:20] + rows[0][20:] for name in (one, other)]
            self.assertIn(words, netlist_mends.unclear(file_of([UNITS, *its]), 2))
            self.assertEqual(netlist_mends.unclear(file_of([UNITS, its[1], its[1]]), 2), "")
        # A part's name that begins early is none of the net's.
        its = [self.record("A" * 12, width=17)[:18] + f"U{n}" + rows[0][20:] for n in (1, 2)]
        self.assertEqual(netlist_mends.unclear(file_of([UNITS, *its]), 2), "")

    def test_no_alias_of_a_name_that_runs_on(self):
        """Behind an alias two names would be one, in columns of bytes and of characters."""
        for name in ("A BBBBBBBBBBBB", "\u00c4BBBBBBBBBBBBB", "BBBBBBBBBBBBB\udcd6", "BBBBBBBBBBBBBB"):
            rows = [self.record(name).replace("   ", f"O{n} ", 1) for n in (1, 2)]
            data = netlist_mends.mended(file_of([UNITS, *rows]), 6)[0]
            self.assertNotIn(b"NNAME", data, name)


class Points(made.Case):
    def test_same_points(self):
        """To the program each form has the points of the lines that it takes."""
        program = common.program()

        def points(lines):
            self.board(
                {
                    "m.json": made.manifest(["top.gbr"] * 6),
                    "top.gbr": made.gerber(*made.flash(10, (1, 2))),
                    "n.ipc": netlist_mends.mended(file_of(lines), 6)[0],
                }
            )
            status, out, notes = self.run_words([program, "check", "m.json"], self.path("board"))
            self.assertIn(status, (0, 1), (notes, lines))
            told = Report(out.encode())
            return [(layer, told.names[name], spot) for (_, layer, name, _), spot in zip(told.points, told.spots)]

        for _, lines, wanted in FORMS:
            self.assertEqual(points(lines), points(wanted), lines)
        for lines, wanted in SPANS:
            self.assertEqual(points(lines), points([UNITS, *wanted]), lines)


def read_strictly(data, layers):
    """What `check` reads of a netlist, by its table of lines: (layer, name, x, y) of each point, or None where it refuses one."""
    found, has_end, has_unit = [], False, False
    for line in data.split(b"\n"):
        line = line[:-1] if line.endswith(b"\r") else line
        code, body = line[:3], line[:57].ljust(57)
        if not body.strip(b" \t"):
            continue
        if has_end:
            return None
        if code == b"999":
            has_end = True
        elif code in (b"317", b"327"):
            name, access, numbers = (
                body[3:17].strip(b" \t") or b"N/C",
                body[39:41].lstrip(b" \t"),
                [body[at : at + 8] for at in (41, 49)],
            )
            is_name = all(33 <= byte <= 126 for byte in name)
            is_access = body[38:39] == b"A" and len(access) > 0 and access.isdigit() and int(access) <= layers
            is_place = all(
                it[:1] == letter and it[1:2] in b" \t+-" and it[2:].lstrip(b" \t").isdigit()
                for it, letter in zip(numbers, (b"X", b"Y"))
            )
            if not (has_unit and is_name and is_access and is_place):
                return None
            x, y = (int(it[2:].lstrip(b" \t")) * (-1 if it[1:2] == b"-" else 1) for it in numbers)
            found += [(layer, name, x, y) for layer in ((1, layers) if int(access) == 0 else (int(access),))]
        elif line[:1] == b"P" and line[1:57].split()[:1] == [b"UNITS"]:
            if has_unit or line[1:57].split()[1:] != [b"CUST", b"1"]:
                return None
            has_unit = True
        elif line[:1] not in (b"C", b"P") and code not in ipc356.PASSED_OVER:
            return None
    return found if has_end else None


class Tool:
    """Writes a netlist in forms that are chosen at random, and knows its points."""

    NAMES = ("GND", "MY NET", "A  B", "GR\u00d6SSE", "\u7535\u6e90", "NNAME7", "a_name_of_over_14", "N/C", "x" * 14)

    def __init__(self, seed):
        self.random, self.points, self.lines, self.layers = random.Random(seed), set(), [], 6
        self.is_bottom_16, self.counts_characters = self.random.random() < 0.3, self.random.random() < 0.5
        self.alias = {"a_name_of_over_14": ["NNAME1", "NNAME2"], "NNAME7": ["NNAME3"]}
        self.lines += [
            "C a tool",
            "P  NNAME1  a_name_of_over_14",
            "P  NNAME2  a_name_of_over_14",
            "P  NNAME3  NNAME7",
            self.random.choice(["P  UNITS SI", "P  UNITS CUST 1"]),
        ]
        for number in range(self.random.randint(1, 12)):
            self.pin(number)
        self.lines += ["999", *(["\x1a"] if self.random.random() < 0.3 else [])]

    def named(self, name):
        """The columns of a name, of which a tool counts bytes or characters."""
        field = self.random.choice(self.alias.get(name, [name]))
        return field + " " * (14 - len(field if self.counts_characters else field.encode()))

    def code_of(self, layer):
        return f"A{16 if layer == self.layers and self.is_bottom_16 else layer:02d}"

    def place(self):
        return [self.random.randint(-99, 999_999) for _ in range(2)]

    def pin(self, number):
        name, (x, y) = self.random.choice(self.NAMES), self.place()
        field, where = self.named(name), f"X{x:+07d}Y{y:+07d}"
        part = f"   U{number:<5}-1          "
        first = self.random.randint(1, self.layers - 1)
        last = self.random.randint(first + 1, self.layers)
        kind = self.random.choice(["pad", "via", "span", "nowhere", "other side", "again", "bottom", "other place"])
        end = self.random.choice(["", "X0600Y0000R000S1", "X0600Y0000R000 S0\r"])
        layers, spots = {first}, [(x, y)]
        if kind in ("via", "span", "nowhere"):
            code = "   " if kind == "nowhere" else f"A{first:02d}"
            self.lines.append(f"307{field}{part}{code}{where}{end}")
            if kind == "nowhere":
                self.lines.append(f"327{field}{part}A{first:02d}{where}")
            if kind == "span":
                self.lines.append(f"027{'':35}L{first:02d}L{last:02d}")
                layers = {first, last}
        else:
            layer = self.layers if kind == "bottom" else first
            layers = {layer}
            self.lines.append(f"327{field}{part}{self.code_of(layer)}{where}{end}")
        if field.isascii() and kind in ("other side", "again", "other place"):
            other = self.random.choice([field + part, " " * 35])
            (across, up), side = self.place(), last if kind == "other side" else first
            there = f"X{across:+07d}Y{up:+07d}" if kind == "other place" else where
            self.lines.append(f"027{other}{self.code_of(side)}{there}")
            layers, spots = layers | {side}, spots + ([(across, up)] if kind == "other place" else [])
        self.points |= {(layer, name, *spot) for layer in layers for spot in spots}

    def text(self):
        paper = [self.random.choice(["", "", "", "\x0c"]) + line for line in self.lines[:-2]]
        return "\n".join([*paper, *self.lines[-2:], ""]).encode()


class Random(unittest.TestCase):
    def points(self, data, layers=6):
        found, whole = read_strictly(data, layers), ipc356.aliases(data)
        return (
            None
            if found is None
            else {(layer, whole.get(name.decode(), name.decode()), x, y) for layer, name, x, y in found}
        )

    def test_all_points_are_kept(self):
        """Netlists in forms at random: what is read of the mended copy are the points that the tool meant, and names stay as distinct."""
        taken = 0
        for seed in range(600):
            tool = Tool(seed)
            data, _ = netlist_mends.mended(tool.text(), tool.layers)
            found = self.points(data)
            if tool.is_bottom_16 and found is None:
                continue  # a bottom of its own code, or of none
            self.assertEqual(found, tool.points, tool.text().decode())
            taken += 1
        self.assertGreater(taken, 500)

    def test_damaged_netlists(self):
        """A byte that is gone, there twice or another: the netlist is refused, or the points of one line alone are others."""
        refused = 0
        for seed in range(2_000):
            chance, tool = random.Random(seed), Tool(seed)
            text = tool.text()
            at = chance.randrange(len(text))
            text = chance.choice(
                [
                    text[:at] + text[at + 1 :],
                    text[:at] + text[at : at + 1] + text[at:],
                    text[:at] + chance.choice([b" ", b"0", b"A", b"X"]) + text[at + 1 :],
                ]
            )
            found = (
                None
                if netlist_mends.unclear(text, tool.layers)
                else self.points(netlist_mends.mended(text, tool.layers)[0])
            )
            refused += found is None
            if found is not None:
                # One line is damaged: a pin with another side, or a via with its span, has two points.
                read, meant = ({(layer, x, y) for layer, _, x, y in points} for points in (found, tool.points))
                self.assertEqual((len(read - meant) <= 2, len(meant - read) <= 2), (True, True), text)
                # Where no line of an alias and no name is hit, no two names have become one.
                names = {name for _, name, *_ in found}
                self.assertGreaterEqual(len(names), len({name for _, name, *_ in tool.points}) - 1, text)
        self.assertGreater(refused, 300)
