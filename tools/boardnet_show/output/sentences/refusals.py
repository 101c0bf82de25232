"""Why a board is not judged, in words that need no table: what a file has at which place, and what to export instead.

The program's own line, with the kind and its number, stands with `--explain` and in JSON."""
import re
from typing import Dict

from boardnet_show.base.refusals import FLATTEN, GERBER, Refusal
from boardnet_show.base.wording import millimetres
from boardnet_show.judging.answers import Answer

CUT_OFF = "the file ends too early: it is cut off, or its tool left its last line out"
GOES_ON = "something stands behind the end of the file"
TOO_MANY = "more copper and holes than can be judged (over 200,000 draws, pads, areas and holes)"
TOO_FINE = "a length that is not a whole number of tenths of a nanometre, or a size that is an odd number of them"
TOO_FAR = "a place over 1 m from the origin, or a size that is 0, negative or too large"
# What a file has there, by the kind of its refusal.
COPPER: Dict[str, str] = {
    "BadWord": "a command that cannot be read: it is damaged, or no command of a Gerber file",
    "LineBreakInWord": "a command that is broken over two lines",
    "NotEnded": CUT_OFF,
    "AfterEnd": GOES_ON,
    "MissingFormat": "a coordinate before the file says its format (FS)",
    "MissingUnit": "a length before the file says its unit (MO)",
    "BadFormat": "a format of coordinates (FS) that is not read, or a second one",
    "UnitConflict": "a second unit, other than the first",
    "Incremental": "incremental coordinates, where absolute ones are wanted",
    "ClearPolarity": "clear polarity (LPC), which takes copper away again",
    "Arc": "an arc (G02, G03)",
    "Macro": "an aperture macro, which is a pad of a shape of its own",
    "Block": "an aperture block (AB)",
    "Polygon": "a polygon as an aperture",
    "Hole": "an aperture with a hole in it",
    "Transform": "an image or aperture that is mirrored, turned, scaled or shifted by a command",
    "NoAperture": "an aperture that is not defined, or a draw or pad without one",
    "ApertureTwice": "an aperture number that is defined twice",
    "PenNotCircle": "a draw with an aperture that is not round",
    "NotInRegion": "a command that may not stand inside an area (G36 to G37), or an area without its beginning or end",
    "OpenContour": "an area whose outline does not end where it begins",
    "ShortContour": "an area with fewer than three corners",
    "OffGrid": TOO_FINE,
    "OutOfRange": TOO_FAR,
    "WrongLayer": "the file's own word that it is another layer than it is listed as",
    "NegativeFile": "the file's own word that it is a negative: what it draws is not copper",
    "TooManyPieces": TOO_MANY,
    "TooManyVertices": "an area with over 100,000 corners, or areas with more corners than can be judged together",
    "NoOperation": "a coordinate that does not say whether to draw, move or flash (D01, D02, D03)",
    "TooManyApertures": "over 65,536 apertures",
    "BadMacro": "an aperture macro with something that is not read",
    "MacroTwice": "an aperture macro that is defined twice",
    "NoMacro": "an aperture of a macro that is not defined",
    "ExposureOff": "an aperture macro that takes copper away (exposure off)",
    "Turn": "an aperture macro that is turned by another angle than 90, 180 or 270 degrees",
    "Slanted": "an aperture macro with a slanted line",
    "TooManyRadii": "over 65,536 different radii",
}
DRILL: Dict[str, str] = {
    "NoHeader": "no line M48 first, so this is no drill file in the Excellon or XNC format, or its beginning is lost",
    "BadLine": "a line that is not read",
    "MissingUnit": "a length before the file says its unit (METRIC or INCH)",
    "NoTool": "a hole without a tool, or a tool that is not defined",
    "ToolTwice": "a tool that is defined twice",
    "ImpliedDecimals": "a number without a decimal point, so the file alone does not say how long it is",
    "OffGrid": TOO_FINE,
    "OutOfRange": TOO_FAR,
    "ArcRout": "a slot that is routed along an arc",
    "WrongMode": "a hole or a route where the file is not ready for it (M15, M16, G00, G01, G05 out of order)",
    "WrongSpan": "the file's own word that its holes go through other layers than it is listed with",
    "NotPlated": "the file's own word that its holes are not plated, so they join no copper",
    "MixedPlating": "the file's own word that it has plated and unplated holes, and it does not say which is which",
    "NotEnded": CUT_OFF,
    "AfterEnd": GOES_ON,
    "TooManyPieces": TOO_MANY,
    "TooManyTools": "over 1,000 tools",
}
NETLIST: Dict[str, str] = {
    "UnknownCode": "a record of a kind that is not read (columns 1 to 3)",
    "Continuation": "a record that goes on from the one before it, but is of another pin",
    "MissingUnits": "a test record before the line that says the unit (P  UNITS CUST 0 or CUST 1)",
    "UnitsTwice": "a second line that says the unit",
    "BadUnits": "a unit that is not read (CUST 0 and CUST 1 are)",
    "BadAccess": "no layer in columns 39 to 41 (A00 to A32), or a layer that the board does not have",
    "BadNumber": "no coordinate where one must stand (X in columns 42 to 49, Y in columns 50 to 57)",
    "BadName": "a net name in columns 4 to 17 with a blank inside, or a sign that is not plain ASCII",
    "OutOfRange": TOO_FAR,
    "NotEnded": "no last line 999: the file is cut off, or its tool left it out",
    "AfterEnd": "something stands behind the last line 999",
    "TooManyRecords": "over 200,000 test records",
}
OF_FORM = {GERBER: COPPER, FLATTEN: COPPER, "drill": DRILL, "netlist": NETLIST}
# Other lines of the program, each with what it means.
LINES = (
    (r"(.+): cannot be read", r"\1 is not there, or the system does not let it be read"),
    (
        r"(.+): not JSON",
        (
            r"\1 is not JSON: a comma or a quote is missing, or a byte order mark stands first; boardnet manifest"
            r" writes it anew"
        ),
    ),
    (
        r"(.+): not a manifest",
        r"\1 is not a manifest: a key is wrong, missing or too much; boardnet manifest writes it anew",
    ),
    (r"(.+): longer than (\d+) bytes", r"\1 is larger than a file may be (\2 bytes)"),
    (r"out of memory", "the program had too little memory"),
    (r"output cannot be written", "the program's output could not be written"),
)
# How a board is judged whose copper is not known exactly.
LEAST_AND_MOST = "It would be judged by the least and the most copper that it may have"
FRAME = r"(?:.+: )?frame too large: (-?\d+) (-?\d+) (-?\d+) (-?\d+)"


def place_words(refusal: Refusal, line: int) -> str:
    """The file and where in it."""
    number = line or (refusal.place if refusal.unit == "line" else 0)
    return f"{refusal.file}, line {number}" if number else f"{refusal.file}, command {refusal.place}"


def what_of(refusal: Refusal) -> str:
    """What a file has that is refused."""
    return OF_FORM[refusal.form].get(refusal.kind, f"something that is not read ({refusal.kind})")


def refused(refusal: Refusal, line: int = 0) -> str:
    """One refusal, with its place."""
    return f"{place_words(refusal, line)}: {what_of(refusal)}" + (" (in a comment)" if refusal.is_comment else "")


def of_line(said: str) -> str:
    """Another line of the program, or a sentence of the scripts as it is."""
    frame = re.fullmatch(FRAME, said)
    if frame:
        left, low, right, high = map(millimetres, map(int, frame.groups()))
        return (
            f"copper and holes reach over more than 1 m (from {left}, {low} to {right}, {high} mm): "
            "something may lie far off, as a logo or a layer with another origin"
        )
    for pattern, means in LINES:
        if re.fullmatch(pattern, said):
            return re.sub(pattern, means, said)
    return said


def stopped(answer: Answer) -> str:
    """All that is said of a board that is not judged."""
    refusal, its = answer.refusal, []
    its.append(refused(refusal, answer.advice.line) if refusal else of_line(answer.said))
    if answer.no_bounds and answer.stops:
        its.append(f"{LEAST_AND_MOST}, but one of these has {what_of(answer.stops)} ({answer.stops.file})")
    elif answer.no_bounds:
        its.append(f"{LEAST_AND_MOST}, but that is not known: {answer.no_bounds}")
    if answer.advice.export:
        its.append(f"To export: {answer.advice.export}")
    if answer.behind:
        its.append(f"Behind that: {'; '.join(map(refused, answer.behind))}")
    return ". ".join(its) + ("" if its[-1].endswith((".", "\n")) else ".")
