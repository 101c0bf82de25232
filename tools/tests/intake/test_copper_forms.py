"""One small board in the forms of several tools: its copper as it comes and spoilt, with the answer of `show`."""
import os
import re

from tests.fixtures import common

NETLIST = (
    "P  UNITS CUST 0\n"
    "317GND              J1    -1    D0394PA00X+013937Y+007874X0630Y0630R000S0\n"
    "317/SIG             J1    -2    D0394PA00X+014937Y+007874X0630Y0630R000S0\n"
    "327/SIG             R1    -1          A01X+016299Y+007874X0472Y0236R000S1\n"
    "327VCC              R1    -2          A01X+017087Y+007874X0472Y0236R000S1\n999\n"
)
HOLES = "M48\n; #@! TF.FileFunction,Plated,1,2,PTH\nMETRIC\nT1C1.000\n%\nT1\nX35.4Y20.0\nX37.94Y20.0\nM30\n"
# Of each tool: the head of a film, the track, the flashes of both layers, the area, all in its own words, and its
# names of both layers.
SIZES = "%ADD10C,0.06299*%\n%ADD11R,0.04724X0.02362*%\n%ADD12C,0.00984*%\n"
COARSE = "%ADD11R,0.0472X0.0236*%\n%ADD12C,0.0098*%\n"
ALLEGRO = (
    "G04 Film Name:    {0}*\nG04 Layer:  VIA CLASS/{0}*\nG04 Layer:  ETCH/{0}*\n%FSLAX25Y25*MOIN*%\n"
    "%IR0*IPPOS*OFA0.00000B0.00000*MIA0B0*SFA1.00000B1.00000*%\n" + SIZES + "%LPD*%\nG75*\n"
)
XPEDITION = (
    "*\nG04 Layer : EtchLayer{0}.gdo*\n%ICAS*%\n%MOIN*%\n%FSLAX25Y25*%\n%OFA0.0000B0.0000*%\nG90*\n"
    "%AMVB_RECTANGLE*\n21,1,$1,$2,0,0,$3*\n%\n"
    + SIZES.replace("R,0.04724X0.02362", "VB_RECTANGLE,0.04724X0.02362X0.0000")
    + "G01*\n"
)
ORCAD = (
    "*\nG04 Image ***\n*\n%ICAS*%\n%MOIN*%\n%IPPOS*%\n%ASAXBY*%\nG74*%FSLAN2X34Y34*%\n%ADD10C,0.0630*%\n"
    + COARSE
    + "*\n"
)
EAGLE = (
    "G75*\nG70*\n%OFA0B0*%\n%FSAX24Y24*%\n%IPPOS*%\n%LPD*%\n%AMOC8*\n5,1,8,0,0,1.08239X$1,22.5*\n*%\n"
    "%ADD10OC8,0.0630*%\n" + COARSE
)
PADS = "G04 PADS 9.5 Build Number: 522968 generated Gerber\n (RS-274-X) file*\n%MOIN*%\n%FSLAX35Y35*%\n" + SIZES
TRAILING = "%FSTAX25Y25*%\n%MOIN*%\n" + SIZES
FIVE = (
    "D12*\nX149370Y78740D02*\nX162992Y78740D01*\n",
    "D10*\nX139370Y78740D03*\nX149370D03*\n",
    "D11*\nX162992Y78740D03*\nX170866D03*\n",
    "G36*\nX131496Y70866D02*\nX143307D01*\nY86614D01*\nX131496D01*\nY70866D01*\nG37*\n",
)
FOUR = (
    "D12*\nX014937Y007874D02*\nX016299Y007874D01*\n",
    "D10*\nX013937Y007874D03*\nX014937Y007874D03*\n",
    "D11*\nX016299Y007874D03*\nX017087Y007874D03*\n",
    "G36*\nX013150Y007087D02*\nX014331Y007087D01*\nX014331Y008661D01*\nX013150Y008661D01*\n"
    "X013150Y007087D01*\nG37*\n",
)


def seven(words):
    """Coordinates of six digits with a zero before."""
    return re.sub(r"([XY])(\d)", r"\g<1>0\2", words)


def trailing(words):
    """Coordinates of 2.5 digits without their last zeros."""
    return re.sub(r"([XY])(\d+)", lambda found: found[1] + (found[2].zfill(7).rstrip("0") or "0"), words)


def moved(words):
    """With a move without a code before the track, and a contour of no area before the region's own."""
    without_area = "X131496Y70866D02*\nX143307D01*\nX131496D01*\nX131496Y70866D02"
    words = words.replace("D12*\nX149370Y78740D02", "D12*\nX1Y1D02*\nX149370Y78740")
    return words.replace("X131496Y70866D02", without_area)


FORMS = {
    "allegro": (ALLEGRO, FIVE, ("TOP", "BOTTOM"), ("TOP.art", "BOTTOM.art")),
    "xpedition": (XPEDITION, FIVE, ("1Top", "2Bottom"), ("EtchLayer1Top.gdo", "EtchLayer2Bottom.gdo")),
    "orcad": (ORCAD, tuple(map(seven, FOUR)), ("", ""), ("mini.TOP", "mini.BOT")),
    "eagle4": (EAGLE, FOUR, ("", ""), ("mini.cmp", "mini.sol")),
    "pads": (PADS, FIVE, ("", ""), ("art001.pho", "art002.pho")),
    "trailing": (TRAILING, tuple(map(trailing, FIVE)), ("", ""), ("x.top", "x.bot")),
    "moved": (PADS, tuple(map(moved, FIVE)), ("", ""), ("x - CADCAM Top Copper.GBR", "x - CADCAM Bottom Copper.GBR")),
}
TRACK, THROUGH, SURFACE, AREA = range(4)


def board(form, track=True, swapped=False, joined=False):
    """The files of a board: as it comes, without its track, with two names exchanged, with an area that joins both
    nets."""
    head, parts, layers, names = FORMS[form]
    area = parts[AREA]
    if joined:  # it reaches over the other through pad
        area = re.sub("X0*143307", lambda found: found[0].replace("143307", "151070"), area)
        area = re.sub("X0*14331Y", lambda found: found[0].replace("14331", "15107"), area)
    top = head.format(layers[0]) + (parts[TRACK] if track else "") + parts[THROUGH] + parts[SURFACE] + "M02*\n"
    bottom = head.format(layers[1]) + area + parts[THROUGH] + "M02*\n"
    other = NETLIST.replace("327/SIG", "327@@@@").replace("327VCC ", "327/SIG").replace("327@@@@", "327VCC ")
    netlist = other if swapped else NETLIST
    return {names[0]: top, names[1]: bottom, "mini.ipc": netlist, "mini.drl": HOLES}


class Forms(common.Case):
    def show(self, files, *words):
        folder = self.path(f"board{len(os.listdir(self.scratch))}")
        for name, text in files.items():
            self.write(os.path.join(folder, name), text)
        show = os.path.join(common.TOOLS, "show")
        return self.run_words([show, folder, *words], environment={"BOARDNET": common.program()})

    def test_boards_and_spoilt_ones(self):
        """Each is answered with --yes, and asked about without it; a lost track, exchanged names and a joining area
        are found."""
        for form in FORMS:
            with self.subTest(form):
                status, out, notes = self.show(board(form))
                self.assertEqual((status, "say --yes" in out + notes), (10, True), out + notes)
                status, out, notes = self.show(board(form), "--yes")
                self.assertEqual((status, out.startswith("PASS ")), (0, True), out + notes)
                for change in ({"track": False}, {"swapped": True}, {"joined": True}):
                    status, out, notes = self.show(board(form, **change), "--yes")
                    self.assertEqual((status, out.startswith("FAIL ")), (1, True), (change, out + notes))

    def test_near_misses(self):
        """A digit less, where all have to be there; a digit too many; a move that may be a draw."""
        rows = (
            ("eagle4", "X013937Y", "X13937Y"),
            ("trailing", "X014937Y", "X014937000Y"),
            ("moved", "X149370Y78740*", "G01X149370Y78740*"),
        )
        for form, old, new in rows:
            files = board(form)
            name = FORMS[form][3][0]
            changed = files[name].replace(old, new, 1)
            self.assertNotEqual(changed, files[name])
            status, out, notes = self.show({**files, name: changed}, "--yes")
            self.assertEqual(status, 3, out + notes)
