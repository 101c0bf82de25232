"""Arcs of copper files that say neither G74 nor G75: which one is taken, on whose word, and what is too little."""
import os

from boardnet_show.formats.gerber_machine import Machine
from boardnet_show.intake.evidence import arc_readings
from tests.fixtures import common

HEAD = "%FSLAX46Y46*%\n%MOMM*%\n%ADD10C,0.4*%\n"
START = "G04 begin*\nD10*\nX0Y0D02*\n"
# Half a circle, a quarter with an offset that G74 has no sign for, a quarter in each form, and a full circle.
HALF = "G03X4000000Y0I2000000J0D01*\n"
SIGNED = "G02X2000000Y2000000I2000000J0D01*\nG02X4000000Y0I0J-2000000D01*\n"
SINGLE = "G02X2000000Y2000000I2000000J0D01*\nG02X4000000Y0I0J2000000D01*\n"
QUARTER = "G02X2000000Y2000000I2000000J0D01*\n"
FULL = "G03X0Y0I2000000J0D01*\n"


def gerber(*parts):
    return (HEAD + START + "".join(parts) + "G01*\nM02*\n").encode()


class Readings(common.Case):
    def test_taken(self):
        for parts, word, count in [
            ([HALF], "G75", "all 1 arc fit"),
            ([SIGNED], "G75", "all 2 arcs fit"),
            ([QUARTER], "G75", "all 1 arc fit"),
            ([HALF, "X0Y0D02*\n", FULL], "G75", "all 2 arcs fit"),
            ([SINGLE], "G74", "the radii of 1 of 2 arcs differ"),
            ([QUARTER.replace("X2000000Y2000000", "X2000001Y1999999")], "G75", "all 1 arc fit"),
            (["G36*\n", SINGLE, "G01X0Y0D01*\nG37*\n"], "G74", "the radii of 1 of 2 arcs differ"),
        ]:
            with self.subTest(parts=parts):
                data = gerber(*parts)
                words, copy = arc_readings.reading(data)
                self.assertIn(f"({word}), which it does not say", words)
                self.assertIn(count, words)
                self.assertEqual(copy, data.replace(b"G04 begin", word.encode()))
        words, copy = arc_readings.reading(gerber(HALF).replace(b"G04 begin*\n", b""))
        self.assertEqual((copy[:5], words.endswith("; one command more stands before all")), (b"G75*%", True))

    def test_left(self):
        """What is said, what has no arc, what fits neither reading, and what the two make different copper of."""
        for name, data in {
            "said": gerber("G75*\n", HALF),
            "said before the mode": gerber("G74*\n", QUARTER),
            "no arcs": gerber("X5D01*\n"),
            "a mode without an arc": gerber("G03*\nG01*\n"),
            "a full circle, which is no arc with G74": gerber(FULL),
            "full circles and quarters": gerber(QUARTER, "X0Y0D02*\n", FULL),
            "signed, and with radii that differ": gerber(SIGNED, "X0Y0D02*\nG02X1000000Y2000000I-2000000J0D01*\n"),
            "unsigned, and no reading fits": gerber("G02X1000000Y2500000I2000000J0D01*\n"),
            "radii a little apart": gerber("G02X2000000Y2000006I2000000J0D01*\n"),
            "one that G74 does not fit": gerber(SINGLE, "X0Y0D02*\nG02X1000000Y2500000I2000000J0D01*\n"),
            "one that turns the other way": gerber(SINGLE, "X0Y0D02*\n", QUARTER.replace("G02", "G03")),
            "an arc without a centre": gerber("G02X2000000Y2000000D01*\n"),
            "a broken file": gerber(HALF)[:-5] + b"%TD%",
        }.items():
            with self.subTest(name):
                self.assertIsNone(arc_readings.reading(data))

    def test_first_arcs_alone(self):
        """A word of quadrants behind some arcs is that of those behind it; a comment that says something stays."""
        data = gerber(HALF, "G74*\n", QUARTER).replace(b"G04 begin", b"G04 #@! TF.Part,Single")
        words, copy = arc_readings.reading(data)
        self.assertEqual((copy, "all 1 arc fit" in words), (b"G75*" + data, True))

        class Modes(Machine):
            def __init__(self):
                super().__init__()
                self.heard = []
                self.read(copy)

            def arc(self, start, centre):
                self.heard.append(self.quadrants)

        self.assertEqual(Modes().heard, ["G75", "G74"])

    def test_show_asks(self):
        """A board whose track is an arc: asked, taken, and with another answer where the arc leads elsewhere."""
        netlist = "P  UNITS CUST 1\n327A                                  A01X+000000Y+000000\n327A                                  A01X+004000Y+000000\n999\n"
        for name, track, status in (
            ("agrees", SIGNED, 0),
            ("differs", SIGNED.replace("X4000000Y0I0", "X4000000Y0I0").replace("J-2000000D01", "J-2000000D02"), 1),
        ):
            pads = "D10*\nX0Y0D03*\nX4000000D03*\nX0Y0D02*\n"
            self.write(
                f"{name}/x.gbr",
                HEAD
                + "%TF.FileFunction,Copper,L1,Top*%\nG04 begin*\n"
                + pads
                + track.replace("I0J-2000000D02", "D02")
                + "M02*\n",
            )
            self.write(f"{name}/n.ipc", netlist)
            show = [os.path.join(common.TOOLS, "show"), self.path(name)]
            asked = self.run_words(show, environment={"BOARDNET": common.program()})
            self.assertEqual(
                (asked[0], "would be taken: x.gbr with arcs of several quadrants (G75)" in asked[1] + asked[2]),
                (10, True),
                asked,
            )
            taken = self.run_words([*show, "--yes"], environment={"BOARDNET": common.program()})
            self.assertEqual(
                (taken[0], "taken as x.gbr with arcs of several quadrants" in taken[1]), (status, True), taken
            )
