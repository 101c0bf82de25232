"""Negative files within outlines of any form: their inside by even and odd where these close, and undecided by name where not."""
import math
import random
import unittest

from boardnet_show.bounds.files import profiles
from boardnet_show.bounds.files.bounded_file import of_text
from tests.fixtures import made
from tests.fixtures.made import built, manifest, netlist, record
from tests.fixtures.real_shapes import FINE, encloses, has, pieces_of

HEAD = ["%FSLAX46Y46*%", "%MOMM*%", "G75*", "%ADD10C,0.1*%", "%ADD11C,1.0*%", "D10*", "G01*"]
MM = 10**7
# A board with a notch from above, its parts and their lines.
NOTCHED = [(0, 0), (10, 0), (10, 10), (6, 10), (6, 3), (4, 3), (4, 10), (0, 10)]
SQUARE = [(0, 0), (10, 0), (10, 10), (0, 10)]


def at(x, y):
    return f"X{round(x * 10 ** 6)}Y{round(y * 10 ** 6)}"


def lines(*corners):
    """Draws round a contour."""
    return [at(*corners[0]) + "D02*", *(at(*corner) + "D01*" for corner in [*corners[1:], corners[0]])]


def circle(x, y, r, way="3"):
    return [at(x + r, y) + "D02*", f"G0{way}{at(x + r, y)}I{round(-r * 10 ** 6)}J0D01*", "G01*"]


def profile(*its, head="%TF.FileFunction,Profile,NP*%"):
    return "\n".join([head, *HEAD, *its, "M02*", ""])


def outline(*texts):
    return profiles.outline_of(list(texts), ["\n".join([*HEAD, "D11*X0Y0D03*", "M02*", ""])])


def sides(its, *words):
    """Both boards of a negative file."""
    its = outline(*its)
    return [pieces_of(side) for side in of_text("\n".join([*HEAD, "%IPNEG*%", *words, "M02*", ""]), lambda: its).sides]


def holds(side, x, y):
    return has(side, (round(x * MM) * FINE, round(y * MM) * FINE))


class Outlines(unittest.TestCase):
    def test_closed(self):
        """Lines, arcs and contours that close, in any order and way, twice, in two files, in one another; whether each contour is dark."""
        there_and_back = [
            line for a, b in zip(SQUARE, SQUARE[1:] + SQUARE[:1]) for line in (at(*b) + "D02*", at(*a) + "D01*")
        ]
        slot = [
            at(3, 4) + "D02*",
            at(7, 4) + "D01*",
            "G03" + at(7, 6) + "I0J1000000D01*",
            "G01" + at(3, 6) + "D01*",
            "G03" + at(3, 4) + "I0J-1000000D01*",
            "G01*",
        ]
        rows = [
            ([profile(*lines(*SQUARE))], [True]),
            ([profile(*lines(*NOTCHED))], [True]),
            ([profile(*there_and_back)], [True]),
            ([profile(*lines(*SQUARE), *there_and_back)], [True]),
            ([profile("G36*", *lines(*SQUARE), "G37*")], [True]),
            ([profile("G36*", *lines(*SQUARE), "G37*", *lines(*SQUARE))], [True]),
            ([profile(*circle(0, 0, 5))], [True]),
            ([profile(*circle(0, 0, 5), *circle(0, 0, 5, "2"))], [True]),
            ([profile(*circle(5, 5, 1), *lines(*SQUARE))], [True, False]),
            ([profile(*slot, *lines(*SQUARE))], [True, False]),
            ([profile(*circle(5, 5, 1), *circle(5, 5, 2), *lines(*SQUARE))], [True, False, True]),
            ([profile(*lines(*SQUARE), *circle(15, 5, 1))], [True, True]),
            ([profile(*lines(*SQUARE)), profile(*circle(5, 5, 1))], [True, False]),
            ([profile(*lines(*SQUARE)), profile(*lines(*SQUARE))], [True]),
            ([profile(*lines(*SQUARE), head="G04 #@! TF.FileFunction,Profile,NP*")], [True]),
            ([profile(at(0, 0) + "D01*", *lines(*SQUARE))], [True]),
        ]
        for texts, darks in rows:
            with self.subTest(texts=texts):
                found = outline(*texts)
                self.assertEqual((found.why, [it.dark for it in found.objects]), ("", darks))

    def test_not_closed(self):
        """Nothing is known of the inside where lines do not close, more than two meet, contours cross, or the file holds anything else."""
        gap = lines(*SQUARE)[:-1] + ["X0Y1D01*"]
        rows = [
            ([], "no file of the folder is its profile"),
            ([profile(*lines(*SQUARE)[:-1])], "1 of its lines end at"),
            ([profile(*gap)], "1 of its lines end at 0.000, 0.000"),
            ([profile(*lines(*SQUARE), *lines((0, 0), (-5, 0), (0, -5)))], "4 of its lines end at 0.000, 0.000 mm"),
            ([profile(*lines(*SQUARE), *lines((5, 5), (15, 5), (15, 7), (5, 7)))], "two of its contours meet"),
            ([profile(*lines(*SQUARE), *circle(5, 9, 1))], "two of its contours meet"),
            ([profile(*lines(*SQUARE), "D11*", "X5Y5D03*")], "a flash"),
            ([profile("%LPC*%", *lines(*SQUARE))], "clear polarity"),
            ([profile("%SRX2Y1I20J0*%", *lines(*SQUARE), "%SR*%")], "step and repeat"),
            ([profile("%ABD12*%", *lines(*SQUARE), "%AB*%")], "a block"),
            ([profile()], "it has no line"),
            (
                [profile(at(5, 5) + "D02*", "G03" + at(6, 5) + "I-1000000J0D01*", "G01" + at(5, 5) + "D01*")],
                "of nearly no length",
            ),
        ]
        for texts, why in rows:
            with self.subTest(texts=texts):
                found = outline(*texts)
                self.assertEqual((found.objects, why in found.why), ([], True), found.why)

    def test_copper_in_what_is_cut_out(self):
        """Both sides of an outline's line, or a panel's outline round that of the board, would leave no plane on the board: its copper tells. A ring round
        a hole, and copper on an island, do not."""
        big, frame = [(-3, -3), (13, -3), (13, 13), (-3, 13)], [(-0.1, -0.1), (10.1, -0.1), (10.1, 10.1), (-0.1, 10.1)]
        copper = lambda *words: "\n".join([*HEAD, *words, "M02*", ""])
        pad, ring, plane = (
            copper("D11*", at(3, 3) + "D03*"),
            copper("%ADD12C,3.0*%", "D12*", at(5, 5) + "D03*"),
            copper("%IPNEG*%", "D11*", at(3, 3) + "D03*"),
        )
        rows = [
            ([profile(*lines(*SQUARE), *lines(*frame))], [pad], False),
            ([profile(*lines(*SQUARE)), profile(*lines(*big))], [plane, pad], False),
            ([profile(*lines(*SQUARE))], [pad], True),
            ([profile(*lines(*SQUARE)), profile(*lines(*big))], [plane], True),
            ([profile(*lines(*SQUARE), *circle(5, 5, 1))], [pad, ring], True),
            ([profile(*lines(*big), *lines(*SQUARE), *circle(3, 3, 1))], [pad], True),
        ]
        for texts, its, is_known in rows:
            with self.subTest(texts=texts, its=its):
                found = profiles.outline_of(texts, its)
                self.assertEqual(
                    (bool(found.objects), "copper lies in what it cuts out, near 2.500, 2.500 mm" in found.why),
                    (is_known, not is_known),
                    found.why,
                )

    def test_places(self):
        """Points near and far from outlines with holes and islands, under dark and clear discs: in both boards as in the real one."""
        rng, asked = random.Random(17), 0
        for tried in range(25):
            star = [
                (20 + r * math.cos(t), 20 + r * math.sin(t))
                for k in range(11)
                for t in [k * math.tau / 11]
                for r in [rng.uniform(12, 20)]
            ]
            star = [(round(x, 6), round(y, 6)) for x, y in star]
            hole, island = rng.uniform(5, 9), rng.uniform(2, 4)
            discs = [
                (rng.random() < 0.5, rng.uniform(0, 40), rng.uniform(0, 40), rng.uniform(1, 6))
                for _ in range(rng.randint(1, 8))
            ]
            words = [
                word
                for k, (dark, x, y, r) in enumerate(discs)
                for word in (
                    f"%ADD{20 + k}C,{2 * r:.6f}*%",
                    f"%LP{'D' if dark else 'C'}*%",
                    f"D{20 + k}*",
                    at(x, y) + "D03*",
                )
            ]
            low, high = sides([profile(*lines(*star), *circle(20, 20, hole), *circle(20, 20, island, "2"))], *words)
            corners = [(round(x * MM), round(y * MM)) for x, y in star]
            for _ in range(60):
                x, y = rng.uniform(-2, 42), rng.uniform(-2, 42)
                off = [math.hypot(x - 20, y - 20) - r for r in (hole, island)] + [
                    math.hypot(x - u, y - v) - r for _, u, v, r in discs
                ]
                if min(map(abs, off)) < 0.002:
                    continue
                dark = False
                for (its, *_), apart in zip(discs, off[2:]):
                    dark = its if apart < 0 else dark
                is_in = encloses(corners, (round(x * MM), round(y * MM)), 1) ^ (off[0] < 0) ^ (off[1] < 0)
                real, asked = is_in and not dark, asked + 1
                self.assertEqual((holds(low, x, y), holds(high, x, y)), (real, real), (tried, x, y))
        self.assertGreater(asked, 1000)


@unittest.skipUnless(built(), "the program is not built")
class Boards(made.Case):
    def told(self, words, points, edge=None):
        files = {
            "m.json": manifest(),
            "top.gbr": "\n".join([*HEAD, "%IPNEG*%", *words, "M02*", ""]),
            "n.ipc": netlist(*points),
        }
        self.board({**files, **({"edge.gbr": edge} if edge else {})})
        return self.show("board", program=built())[:2]

    POINTS = [record("GND", "J1.1", 1, 9), record("GND", "J1.2", 9, 9), record("GND", "J1.3", 5, 1)]
    SLIT = ["D11*", at(5, -0.5) + "D02*", at(5, 3.5) + "D01*"]

    def test_notch(self):
        """Nothing is dark in a notch of the outline: no point there has copper, and no net is joined over it."""
        notched = profile(*lines(*NOTCHED))
        self.assertEqual(self.told([], self.POINTS, notched)[0], 0)
        status, out = self.told([], [*self.POINTS, record("X", "J2.1", 5, 6)], notched)
        self.assertEqual((status, "no copper lies under J2 pin 1" in out, "joined" in out), (1, True, False), out)
        status, out = self.told(self.SLIT, self.POINTS[:2], notched)
        self.assertEqual((status, "GND is in 2 parts" in out), (1, True), out)
        self.assertEqual(self.told(self.SLIT, self.POINTS[:2], profile(*lines(*SQUARE)))[0], 0)

    def test_unknown(self):
        """Without an outline that closes nothing of a plane is certain, and what is missing is said by name."""
        for edge, why in (
            (None, "no file of the folder is its profile"),
            (profile(*lines(*NOTCHED)[:-1]), "its profile says no inside: 1 of its lines end at 0.000, 0.000 mm"),
        ):
            status, out = self.told(self.SLIT, [*self.POINTS[:2], record("X", "J2.1", 5, 6)], edge)
            self.assertEqual(
                (
                    status,
                    " certain" in out,
                    f"the plane, since the board's outline is not known ({why}), at command 8, line 8" in out,
                ),
                (11, False, True),
                out,
            )


if __name__ == "__main__":
    unittest.main()
