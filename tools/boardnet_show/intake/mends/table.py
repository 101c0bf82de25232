"""The table of mends: what each sees, what it writes, and why nothing of the board changes. docs/using/mends.md has the
same rows."""
from collections import namedtuple

from .mend import Mended


class Row(namedtuple("Row", "kind sees writes why told")):
    """`sees`, `writes` and `why` are the guide's words; `told` ends the sentence that names a mend."""

    __slots__ = ()


# Drill files.
PLATING, UNIT, FORM, ENDS, MACHINE, LIFT, FORCE = (
    "plating",
    "unit",
    "unit form",
    "header's end",
    "machine",
    "lift",
    "in force",
)
NUMBERS, HEADERS, REPEATS, GERBER_DRILLS = "numbers", "header", "repeats", "Gerber drills"
# Netlists.
ALIAS, NAME, CHARACTERS, METRIC, VIA, CONTINUED, NO_POINT, LAYER, PAPER = (
    "alias",
    "name",
    "characters",
    "metric",
    "via",
    "continued",
    "no point",
    "layer",
    "paper",
)
# Copper files.
IDENTITY, STRAIGHT, STATE, FORMAT, END, UNUSED, LINES, TURN, CONTOUR = (
    "identity",
    "straight",
    "state",
    "format",
    "end",
    "unused",
    "macro lines",
    "macro turn",
    "contour",
)
DIGITS, FURTHER_MOVE, COMMENT_LINES, NO_AREA = "digits", "further move", "comment lines", "no area"

ROWS = (
    Row(
        PLATING,
        (
            "a drill file with unplated holes (`MixedPlating`, or no file function) where each tool says which it is:"
            " by `; #@! TA.AperFunction,..` or `;TYPE=..` before it, in comments of Allegro or Fritzing, or in the .DRR"
            " beside it"
        ),
        (
            "the holes of plated tools alone; `Plated` for `MixedPlating`; a place that went on from a hole that goes"
            " gets both coordinates"
        ),
        "an unplated hole joins nothing",
        "each tool says whether it is plated",
    ),
    Row(
        UNIT,
        "`M71`, `M72`, `METRIC` or `INCH` again, where it says the header's unit",
        "an empty line",
        "the unit is in force",
        "says the unit that the header says: left out",
    ),
    Row(
        FORM,
        (
            "`METRIC` or `INCH` with digits (`,000.000`, `,TZ,0000.00`), or in their place `M71` or `M72` in the"
            " header, where every number of the file has a point"
        ),
        "the unit alone",
        "a number with a point needs no word on its zeros",
        "says more than the unit, and every number has a point: the unit alone is kept",
    ),
    Row(
        NUMBERS,
        (
            "numbers without a point, where the file says their digits (`;FILE_FORMAT=2:5`, `FORMAT={3:3/`, `,000.000`)"
            " and zeros (`LZ`, `TZ`, or all stand), or nc_param.txt or its .dri beside it does"
        ),
        "each number with its point",
        "no number contradicts them",
        "",
    ),
    Row(
        HEADERS,
        (
            "no `M48`, but tools in Allegro's comments or lines such as `T1C0.028F200S100`; a unit behind the tools,"
            " before any hole"
        ),
        "a header of these; later lines count more",
        "the file says them",
        "",
    ),
    Row(
        REPEATS,
        "`R<n>X..Y..` behind a hole",
        "the holes; later lines count more",
        "each is a step further",
        "repeats a hole: written out",
    ),
    Row(
        GERBER_DRILLS,
        "a drill file in the Gerber format (`TF.FileFunction,Plated,..`)",
        "XNC",
        "a flash of a circle is a hole, a straight draw a slot",
        "",
    ),
    Row(ENDS, "`M95` in the header", "`%`", "both end the header", "ends the header: written as `%`"),
    Row(
        MACHINE,
        (
            "feed, speed, retract, hits and depth of a tool (`F`, `S`, `B`, `H`, `Z`); lines of `F` and `S`; `ATC`,"
            " `BLKD`, `DETECT`, `OSTOP`, `SBK`, `SG`, `TCST` with `,ON` or `,OFF`; `M47` with a message; `M00` before a"
            " tool or the end"
        ),
        "the tool's diameter alone; an empty line",
        "they say how the machine runs, and not where a hole is",
        "says how the machine runs: left out",
    ),
    Row(LIFT, "`M17` with the tool down", "`M16`", "both lift the tool", "lifts the tool: written as `M16`"),
    Row(
        FORCE,
        (
            "`ICI,OFF`, `VER,1`, `G40`, `G93X0Y0`, `/`; `FMAT,2` in the body; `G05`, `R,H`, `R,C` in the header, `R,T`"
            " before its tools; `M17` with the tool up; `%` before `M48` or behind `M30`"
        ),
        "an empty line",
        "it is in force without it",
        "says what is in force anyway: left out",
    ),
    Row(
        IDENTITY,
        (
            "`OF`, `MI`, `IR` of 0 and `SF` of 1, however written (`OFA0.00000B0.00000`); `SRX1Y1` without steps; a"
            " hole of size 0 in an aperture"
        ),
        "the same as `check` takes it (`OFA0B0`)",
        "by its value it changes nothing",
        "changes nothing, by its value: written as `check` takes it",
    ),
    Row(
        STRAIGHT,
        "`I` and `J` of 0 where lines are straight",
        "the word without them",
        "a straight line has no centre",
        "has a centre of 0 and is straight: written without it",
    ),
    Row(
        STATE,
        "`G02`, `G03` alone before no draw; `G55` before a flash; `M01`; `M00` before `M02`; `ICAS`",
        "an empty comment or attribute; the word without `G55`",
        "no draw is one of their arcs, and the others do nothing",
        "has no effect: left out",
    ),
    Row(
        FORMAT,
        "`FS` with the lengths of codes (`N2`, `G2`, `D2`, `M2`)",
        "`FS` without them",
        "they say nothing of places",
        "has lengths of codes: written without them",
    ),
    Row(
        DIGITS,
        "`FSA..` without `L` where each coordinate has all its digits; `FSTA..`",
        "`FSLA..`; zeros behind the numbers",
        "no zero is left out, or it is known which",
        "says another thing of zeros: written as `check` takes it, each number with all its digits",
    ),
    Row(
        FURTHER_MOVE,
        "coordinates alone behind a move, outside of regions",
        "`D02` behind them",
        "a code is in force until another comes",
        "has no code behind a move: written as one more",
    ),
    Row(
        COMMENT_LINES,
        "a comment over several lines, none of which begins like a command",
        "the comment in one line",
        "it says nothing of copper",
        "is a comment over several lines: joined",
    ),
    Row(
        NO_AREA,
        "a contour of one or two edges that ends where it begins",
        "empty comments for its edges",
        "it encloses nothing",
        "begins a contour of one or two edges, which encloses nothing: left out",
    ),
    Row(END, "`M00` as the last word", "`M02`", "both end the file", "ends the file: written as `M02`"),
    Row(
        UNUSED,
        (
            "an aperture outside the profile that no draw and no flash has, with its selections; a macro that no other"
            " aperture names"
        ),
        "an attribute without a meaning; an empty comment",
        "it makes no copper",
        "is used by no draw and no flash: left out",
    ),
    Row(
        LINES,
        "a macro's word that is broken over lines beside a comma or at its end, or has blanks there",
        "the word in one line",
        "a blank there ends no number",
        "is a macro's word over several lines, or with blanks: joined",
    ),
    Row(
        TURN,
        "a macro's rotation by a parameter, where its apertures say multiples of 90",
        "one macro for each value, with the value there",
        "the parameter stands for it",
        "has a rotation by its apertures' parameters: written by their values",
    ),
    Row(
        CONTOUR,
        "a contour of over 100,000 edges, where no word takes copper away or repeats it",
        "several, parted by chords; the first in its place, the others at the file's end, with its net name",
        "a chord lies in the copper and meets no edge, and no part enters another",
        "",
    ),
    Row(
        ALIAS,
        "a netlist's names that stand for one whole name (`P  NNAME1 A`, `P  NNAME2 A`)",
        "one of them in all records",
        "equal whole names are one net",
        "",
    ),
    Row(
        NAME,
        "a name with blanks or letters outside ASCII in its columns",
        "an alias, `P  NNAME<n>` before `999`",
        "the columns are the name's",
        "is no name for `check`: written as an alias",
    ),
    Row(
        CHARACTERS,
        "a record that stands only by characters of UTF-8",
        "the same in ASCII",
        "a letter's bytes are no columns",
        "has columns of characters: written in ASCII",
    ),
    Row(METRIC, "`P  UNITS SI`", "`P  UNITS CUST 1`", "both are 0.001 mm", "is 0.001 mm: written as `CUST 1`"),
    Row(
        VIA,
        "`307` with a layer, or `L<n>L<m>` in the `027` behind it",
        "`317` there, of a span at both ends",
        "a via is a plated hole",
        "is a blind or buried via: written as `317`",
    ),
    Row(
        CONTINUED,
        "`017`, `027` behind its record, of no other name or pin",
        "a record on its layer; a comment where no other place is said",
        "the same pin",
        "goes on from its record: written as a record of its own",
    ),
    Row(
        NO_POINT,
        "`390`, `088`, `099`; `307` without a layer at a place of its net in another record",
        "a comment",
        "they name no further point",
        "names no test point: left out",
    ),
    Row(
        LAYER,
        "`A16`, `A32` or `A64` alone over the layers, none of the last",
        "the last layer",
        "tools write the bottom so",
        "",
    ),
    Row(
        PAPER,
        "form feeds at a line's ends; `^Z` behind `999`",
        "without them",
        "signs for printers and disks",
        "has signs for printers or disks: left out",
    ),
)
TOLD = {row.kind: row.told for row in ROWS}


def described(name, found):
    """A mend in one sentence."""
    more = f" (and {found.more} more)" if found.more else ""
    return Mended(
        name,
        found.line,
        found.kind,
        f"{name}: line {found.line}, `{found.text}`{more}, {found.what or TOLD[found.kind]}",
    )
