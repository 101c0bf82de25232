"""CAD tools: how the files of each are known, and the names of its settings that make files which fit."""
import re
from typing import Dict, Iterable, NamedTuple, Pattern

from boardnet_show.formats.gerber_lexer import holding

from .package import Package


class Tool(NamedTuple):
    """A tool's name, and what comments and attributes of its files say."""

    name: str
    sign: Pattern[bytes]


TOOLS = tuple(
    Tool(name, re.compile(sign, re.I | re.M))
    for name, sign in (
        ("KiCad", rb"kicad"),
        ("pcb-rnd", rb"pcb-rnd"),
        ("LibrePCB", rb"LibrePCB"),
        ("Horizon EDA", rb"Horizon"),
        ("EasyEDA", rb"EasyEDA|LCEDA"),
        ("Altium Designer", rb"Altium|\bLayer_Color="),
        ("Allegro", rb"Allegro|Cadence|^[ \t]*;[ \t]*Holesize\b"),
        ("PADS", rb"\bPADS\b"),
        ("EAGLE", rb"\bEAGLE\b"),
        ("DipTrace", rb"DipTrace"),
        ("Proteus", rb"\bProteus\b"),
        ("Xpedition", rb"Xpedition|Expedition"),
        ("Fusion", rb"Autodesk"),
        ("gEDA pcb", rb"\bpcb 20|gEDA"),
        ("gerbv", rb"\bgerbv\b"),
    )
)
COMMENTS = re.compile(rb"^[ \t]*;[^\n]*", re.M)
HEAD = 4096  # bytes

# By the kind of refusal what to export: for some tools by the names of their own settings, else for all.
WAYS: Dict[str, Dict[str, str]] = {
    "MixedPlating": {
        "KiCad": "Generate Drill Files, 'PTH and NPTH in single file' off " "(kicad-cli: --excellon-separate-th)",
        "Altium Designer": "NC Drill Setup, 'Generate separate NC Drill files for plated & non-plated " "holes' on",
        "Allegro": "NC Drill, 'Separate files for plated/non-plated holes' on",
        "EAGLE": "CAM Processor, drill files of layer 44 Drills and of layer 45 Holes apart",
        "": "plated and unplated holes in files of their own, or each tool with its attribute",
    },
    "ImpliedDecimals": {
        "KiCad": "Generate Drill Files, zeros format 'Decimal format' " "(kicad-cli: --excellon-zeros-format decimal)",
        "pcb-rnd": "the exporter excellon with --coord-format um",
        "": "drill files with a decimal point in each number",
    },
    "ArcRout": {
        "KiCad": "Generate Drill Files, Oval Holes Drill Mode: either",
        "Altium Designer": "NC Drill Setup, 'Use drilled slot command (G85)' on and 'Generate Board Edge Rout "
        "Paths' off",
        "": "slots as straight routs or by G85",
    },
    "BadLine": {
        "Allegro": "NC Parameters, 'Enhanced Excellon format' on; NC Drill, 'Repeat codes' off",
        "": "XNC or Excellon 2 drill files with a unit line, decimal numbers, and no repeats",
    },
    "MissingUnit": {
        "Allegro": "NC Parameters, 'Enhanced Excellon format' on",
        "": "a unit line, METRIC or INCH, in the header",
    },
    "NotPlated": {"": "the file has unplated holes: take it out of the manifest"},
    "Incremental": {
        "Allegro": "Coordinate type 'Absolute' in the Artwork Control Form, Coordinates 'Absolute' in " "NC Parameters",
        "": "absolute coordinates",
    },
    "BadFormat": {
        "Altium Designer": "Gerber Setup, Advanced, 'Suppress leading zeroes'; "
        "Apertures, 'Embedded apertures (RS274X)' on",
        "Allegro": "Artwork Control Form, Device type 'Gerber RS274X', Suppress 'Leading zeroes'",
        "EAGLE": "CAM Processor, device GERBER_RS274X",
        "": "RS-274X or X2 with one format and leading zeros left out",
    },
    "MissingFormat": {
        "Altium Designer": "Gerber Setup, Apertures, 'Embedded apertures (RS274X)' on",
        "Allegro": "Artwork Control Form, Device type 'Gerber RS274X'",
        "EAGLE": "CAM Processor, device GERBER_RS274X",
        "": "RS-274X or X2, whose files have their format",
    },
    "NegativeFile": {
        "Allegro": "Artwork Control Form, Film Control, Plot mode 'Positive'",
        "": "positive files: planes as copper, not as clearances",
    },
    "Block": {"": "copper without aperture blocks (AB)"},
    "Transform": {"": "objects mirrored, turned and scaled by the tool, without LM, LR and LS"},
    "PenNotCircle": {"": "draws with round apertures"},
    "TooManyVertices": {"": "the plane as several areas, or with clearances drawn over it (LPC)"},
    "ClearPolarity": {"KiCad": "zones filled as polygons, with no negative objects on copper layers"},
    "NotEnded": {"": "the file anew: it is cut off"},
}

ORIGINS = {
    "KiCad": "Generate Drill Files, Drill origin, as for the Gerbers: with Use drill/place file origin there, "
    "kicad-cli pcb export drill --drill-origin plot",
    "Altium Designer": "NC Drill Setup and Gerber Setup, the same reference to the absolute or relative origin",
}
# By what a hint changes: the settings by which files fit together.
SETTINGS: Dict[str, Dict[str, str]] = {
    "drills": ORIGINS,
    "copper": {
        "KiCad": "Plot, Use drill/place file origin, as for the drills: "
        "kicad-cli pcb export gerbers --use-drill-file-origin",
        "Altium Designer": ORIGINS["Altium Designer"],
    },
    "mirrored drills": {"KiCad": "Generate Drill Files, Mirror Y axis off"},
    "placement": {
        "KiCad": "its netlist counts from the drill/place origin: Plot, Use drill/place file origin, and "
        "drills from it too; kicad-cli pcb export gerbers --use-drill-file-origin, drill "
        "--drill-origin plot"
    },
}


def tool_of(data: bytes) -> str:
    """The tool that wrote a file, as the file's comments say, or nothing."""
    head = data[:HEAD]
    words = (it.text for sign in (b"G04", b"TF.GenerationSoftware") for it in holding(head, sign))
    said = b"\n".join([*COMMENTS.findall(head), *words])
    return next((tool.name for tool in TOOLS if tool.sign.search(said)), "")


def way(kind: str, tool: str) -> str:
    """What to export, for a kind of refusal and a tool, or nothing."""
    by_tool = WAYS.get(kind, {})
    if tool and tool in by_tool:
        return f"{tool}: {by_tool[tool]}"
    return by_tool.get("", "")


def setting(package: Package, kind: str, names: Iterable[str]) -> str:
    """The setting of the tool that wrote some of these files, in brackets, to stand behind what was changed."""
    by_tool = SETTINGS.get(kind, {})
    tool = next(filter(None, (tool_of(package.read(name)) for name in names)), "")
    return f" ({tool}: {by_tool[tool]})" if tool in by_tool else ""
