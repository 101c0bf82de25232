"""Looks for limits outside their declaration: each has one name, by which code, definitions and proofs tell it.

Comments may tell a number to the reader, and tests are free to spell one. A small number is looked for only on lines that speak of what it limits.
"""
import glob
import os
import re
import unittest

from tests.fixtures import common

# Each limit: its name, the file of its declaration, how its number is spelled, and of what the lines speak where that is small.
LIMITS = [
    ("METRE", "planar/src/lib.rt", r"10_?000_?000_?000|10 \^ 10", ""),
    ("TWO_METRES", "planar/src/lib.rt", r"20_?000_?000_?000", ""),
    ("MOST_RADIUS", "contact/src/lib.rt", r"250_?000_?000", ""),
    ("MOST_DIAMETER", "contact/src/lib.rt", r"500_?000_?000", ""),
    ("MOST_CONTOUR_EDGES", "area_contact/src/lib.rt", r"100_?000", ""),
    ("MOST_CONTOUR_POINTS", "area_contact/src/lib.rt", r"100_?001", ""),
    ("MOST_BYTES", "texts/src/lib.rt", r"67_?108_?864|2 \^ 26", ""),
    ("MOST_NAME_BYTES", "lengths/src/lib.rt", r"200", r"len|name|bytes|text"),
    ("MOST_PIECES", "board_shapes/src/lib.rt", r"200_?000", ""),
    (
        "MOST_LAYERS",
        "board_shapes/src/lib.rt",
        r"(?<!\^ )32",
        r"\w*(layer|copper)\w*(\.\w+)*(\(\))?\)? (<|>|<=|>=|≤|32)|\bto ≤",
    ),
    ("MOST_RECORDS", "ipc356_records/src/lib.rt", r"200_?000|400_?000", ""),
    ("MOST_APERTURES", "gerber_reading/src/lib.rt", r"65_?536|2 \^ 16", ""),
    ("MOST_FLAT_EDGES", "gerber_layer/src/lib.rt", r"1_?000_?000", ""),
    ("MOST_EDGES", "board_package/src/parts.rt", r"2_?000_?000", ""),
    ("MOST_DRILLS", "board_package/src/manifest.rt", r"64", r"drills"),
    ("MOST_TOOLS", "xnc/src/lib.rt", r"1_?000", r"tools|Tools"),
    ("MOST_OUTLINE_EDGES", "aperture_macros/src/lib.rt", r"5_?000", ""),
    ("MOST_TERMS", "aperture_macros/src/expression.rt", r"64", r"sum|terms"),
    ("MOST_REACH", "planar/src/lib.rt", r"700_?000_?000", ""),
    ("MOST_PART", "slants/src/turns.rt", r"100_?000_?000", ""),
    ("MOST_PRIMITIVES", "gerber_reading/src/lib.rt", r"256", r"body|primitive"),
    ("MOST_CELLS", "board_maker/src/lib.rt", r"10_?000", r"\bsize\b"),
    ("MOST_NANOMETRES", "gaps/src/lib.rt", r"10_?000_?000", r"nanometres"),
]

# Where such a number is left, and why.
LEFT = {
    ("boardnet/src/refusing.rt", "67108864"): "the words of a line, which the program prints",
    ("boardnet/specs/Common.antt", "67108864"): "the same words",
    ("boardnet/specs/Outcome.antt", "67108864"): "the same words",
    ("gaps/src/found.rt", "65_536"): "no limit: lines are thinned first when they are so many",
    ("reports/proofs/SmallParts.antt", "1_000_000"): "no limit: what six digits tell",
    ("lengths/src/decimal.rt", "1_000_000"): "no limit: the units of a decimal's last place",
    ("lengths/src/decimal.rt", "100_000"): "the same",
    ("real_copper/src/centres.rt", "1_000_000"): "no limit: how many steps of a format are a unit",
    ("real_copper/src/centres.rt", "100_000"): "the same",
    ("texts/src/writing.rt", "100_000"): "no limit: what five digits tell",
    ("texts/proofs/Decimals.antt", "100_000"): "the same",
    ("board_maker/specs/Laws.antt", "1_000_000"): "no limit: what six digits tell",
    ("board_maker/proofs/Shortness.antt", "1_000_000"): "the same",
    (
        "board_maker/proofs/Shortness.antt",
        "250_000_000",
    ): "no limit: how far the pieces of the largest made package reach",
    ("made_files/specs/MadeFiles.antt", "2_000_000"): "no limit: lengths of the made board in u",
    ("made_files/specs/MadeFiles.antt", "1_000_000"): "the same",
    ("made_files/proofs/MadeHoles.antt", "2_000_000"): "the same",
    ("made_files/proofs/MadeHoles.antt", "1_000_000"): "the same",
    ("made_files/proofs/MadeCopper.antt", "2_000_000"): "the same",
    ("made_files/proofs/MadePoints.antt", "200_000"): "a count of records, which the reader's limit bounds",
    ("verdict/specs/Limits.antt", "1_000_000"): "no limit: what six digits tell",
    ("verdict/proofs/Shortness.antt", "1_000_000"): "the same",
    (
        "verdict/specs/Limits.antt",
        "200_000",
    ): "a report's parts; the limits of boards have their names above this crate",
    ("verdict/specs/Limits.antt", "400_000"): "the same",
    ("verdict/proofs/Shortness.antt", "200_000"): "the same",
    ("verdict/proofs/Shortness.antt", "400_000"): "the same",
    ("boardnet/proofs/refusing/put_fault/Answers.antt", "67108864"): "the words of a line, as its definition has them",
    ("netlist_writer/proofs/Digits.antt", "1_000_000"): "no limit: what six digits tell",
    ("verdict/proofs/LineNumbers.antt", "65536"): "no limit: what two bytes tell",
    ("planar/proofs/SpotWithin.antt", "700000000"): "MOST_REACH, as arithmetic wants it",
    ("made_files/proofs/Frame.antt", "100_000_000"): "no limit: how far a cell reaches in u",
    ("board_maker/src/made.rt", "10000"): "the words of a refusal",
    ("board_maker/proofs/Shortness.antt", "10_000"): "a cell's number, which the limit bounds",
    ("made_files/proofs/MadeCopper.antt", "10_000"): "the same",
    ("made_files/proofs/Frame.antt", "10_000"): "the same",
    ("slants/proofs/Reach.antt", "10000000000"): "METRE, as arithmetic wants it: callers have it by its name",
    ("netlist_writer/proofs/Histories.antt", "1_000_000"): "the same",
    ("netlist_writer/proofs/TestLines.antt", "1_000_000"): "the same",
}

CRATES = os.path.join(common.TOP, "crates")
COMMENT = {".rt": "//", ".antt": "--"}


def files():
    """The files of src, specs and proofs that are no tests, by their paths in crates/."""
    for part in ("src", "specs", "proofs"):
        for kind in COMMENT:
            for path in glob.glob(os.path.join(CRATES, "*", part, "**", f"*{kind}"), recursive=True):
                name = os.path.relpath(path, CRATES)
                if "tests" not in re.split(r"[/._]", name):
                    yield name


def lines(name):
    """The lines of a file without their comments."""
    with open(os.path.join(CRATES, name), encoding="utf-8") as file:
        for line in file:
            yield line.partition(COMMENT[os.path.splitext(name)[1]])[0]


def numbers(spelled, about, line):
    """How a line spells the number, where it speaks of what that limits."""
    return re.findall(rf"(?<![\w.])(?:{spelled})(?!\w)", line) if re.search(about, line) else []


def declares(name, line):
    return re.match(rf"(pub )?const {name}: \w+ = [^;]+;", line)


class Limits(unittest.TestCase):
    def test_declared(self):
        for name, file, *_ in LIMITS:
            self.assertEqual(1, sum(bool(declares(name, line)) for line in lines(file)), name)

    def test_named(self):
        found, declarations = set(), [(file, name) for name, file, *_ in LIMITS]
        for file in files():
            for line in lines(file):
                if any(at == file and declares(name, line) for at, name in declarations):
                    continue
                for _, _, spelled, about in LIMITS:
                    found.update((file, number) for number in numbers(spelled, about, line))
        self.assertEqual(found, set(LEFT))

    def test_finds(self):
        rows = [
            ("METRE", "n ≤ 10_000_000_000"),
            ("METRE", "n ≤ 10 ^ 10"),
            ("MOST_BYTES", "length file.now ≤ 67108864"),
            ("MOST_NAME_BYTES", "bytes: [u8; 200],"),
            ("MOST_NAME_BYTES", "length name ≤ 200"),
            ("MOST_LAYERS", "requires few { layers ≤ 32 }"),
            ("MOST_LAYERS", "(nat_le (length copper) 32 &&"),
            ("MOST_LAYERS", "if copper.len() > 32 {"),
            ("MOST_DRILLS", "length drills ≤ 64"),
        ]
        told = {name: rest for name, _, *rest in LIMITS}
        for name, line in rows:
            self.assertTrue(numbers(*told[name], line), line)
        for name, line in [
            ("MOST_LAYERS", "reader.layers ≤ 2 ^ 32"),
            ("MOST_NAME_BYTES", "n ≤ 2_200"),
            ("METRE", "10_000_000_000_000"),
        ]:
            self.assertFalse(numbers(*told[name], line), line)
