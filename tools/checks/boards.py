"""Made boards of each kind, for snapshots: mended, flattened, between bounds, tied, with hints, by labels, refused, not judged.

Each is small, so that the stand-in for the program can judge it. They are made by the writers of the tests' fixtures.
"""
import io
import json
import zipfile
from typing import Dict, List, Union

from tests.fixtures import hinted, pages
from tests.fixtures.made import draw, drill, flash, gerber, label, manifest, netlist, record, region

Files = Dict[str, Union[str, bytes]]

HEAD = "%FSLAX46Y46*%\n%MOMM*%\n"
POINTS = netlist(record("A", "J1.1", 1, 0), record("A", "J1.2", -1, 0), record("B", "J2.1", 5, 5))
# What stands outside the profile, each with copper about (1, 0) and (-1, 0), and what the lower bound may lose.
OUTSIDE: Dict[str, List[str]] = {
    "arc": ["%ADD20C,0.2*%", "D20*", "G75*", "X1000000Y0D02*", "G03X-1000000Y0I-1000000J0D01*", "G01*"],
    "arc_thin": [
        "%ADD20C,0.0002*%",
        "D20*",
        "G75*",
        "X1000000Y0D02*",
        "G03X-1000000Y0I-1000000J0D01*",
        "G01*",
        *flash(11, (1, 0), (-1, 0)),
    ],
    "arc_single_quadrant": [
        "%ADD20C,0.2*%",
        "D20*",
        "G74*",
        "X1000000Y0D02*",
        "G03X0Y1000000I1000000J0D01*",
        "X-1000000Y0I0J1000000D01*",
        "G01*",
    ],
    "region_with_arcs": [
        "G75*",
        "G36*",
        "X-1500000Y0D02*",
        "G01*",
        "X1500000Y0D01*",
        "G03X1500000Y1000000I0J500000D01*",
        "G01X-1500000Y1000000D01*",
        "G03X-1500000Y0I0J-500000D01*",
        "G37*",
        "G01*",
    ],
    "hole": ["%ADD20C,3X1.2*%", "D20*", "X0Y0D03*", "%ADD21R,1X.6X.3*%", "D21*", "X5000000Y5000000D03*"],
    "polygon": ["%ADD20P,3X6X15*%", "D20*", "X0Y0D03*"],
    "square_pen": ["%ADD20R,0.4X0.4*%", "D20*", "X1000000Y0D02*", "X-1000000Y500000D01*", "X-1000000Y0D01*"],
    "macro_line": [
        "%AMA*",
        "20,1,0.4,-1.2,0,1.2,0,15*",
        "1,0,0.3,0,0*",
        "%",
        "%ADD20A*%",
        "D20*",
        "X0Y0D03*",
        *flash(11, (1, 0), (-1, 0)),
    ],
    "macro_outline": [
        "%AMA*",
        "4,1,5,-1.5,-.5,1.5,-.5,1.5,.5,0,.1,-1.5,.5,-1.5,-.5,$1*",
        "%",
        "%ADD20A,7*%",
        "D20*",
        "X0Y0D03*",
    ],
    "macro_polygon": ["%AMA*", "5,1,8,0,0,3.1,22.5*", "5,0,8,0,0,.4,0*", "%", "%ADD20A*%", "D20*", "X0Y0D03*"],
    "macro_thermal": ["%AMA*", "7,0,0,3,1.6,.2,0*", "%", "%ADD20A*%", "D20*", "X0Y0D03*"],
    "macro_rectangle_turned": ["%AMA*21,1,$1,$2,0,0,$3*%", "%ADD20A,3X1X30*%", "D20*", "X0Y0D03*"],
    "clear": ["%LPC*%", "%ADD20C,0.5*%", "D20*", "X0Y0D03*", "%LPD*%"],
    "clear_cuts": [
        *region((-2, -1), (2, -1), (2, 1), (-2, 1)),
        "%LPC*%",
        "%ADD20C,0.5*%",
        "D20*",
        "X0Y-1500000D02*",
        "X0Y1500000D01*",
        "%LPD*%",
    ],
    "negative": ["%IPNEG*%"],
    "turned_block": [
        "%ABD20*%",
        *draw(11, (-1, 0), (1, 0)),
        "%AB*%",
        "%LR10*%",
        "D20*",
        "X0Y0D03*",
        "%LR0*%",
        *flash(10, (1, 0), (-1, 0)),
    ],
    "scaled": ["%LS1.5*%", "%LMX*%", *flash(10, (1, 0), (-1, 0)), "%LS1*%", "%LMN*%", *draw(11, (1, 0), (-1, 0))],
    "repeated": ["%SRX2Y1I2J0*%", "%ADD20C,1X.2*%", "D20*", "X-1000000Y0D03*", "%SR*%", *draw(11, (1, 0), (-1, 0))],
    "moire": ["%AMA*6,0,0,1,.1,.1,2,.1,1,0*%", "%ADD20A*%", "D20*", "X0Y0D03*"],
    "one_clear_word_in_region": ["G36*", "%LPC*%"],
}
# Files as layout tools write them, with what `show` mends: of copper and of drills.
MENDED_COPPER: Dict[str, str] = {
    "identities": HEAD + "%IR0*IPPOS*OFA0.00000B0.00000*MIA0B0*SFA1.00000B1.00000*%\n",
    "format": "%FSLAN2X46Y46D2M2*%\n%MOMM*%\n",
    "unused": HEAD + "%AMOC8*\n5,1,8,0,0,1.08239X$1,22.5*\n%\n",
    "lines": HEAD + "%AMM*\n4,1,3,0.5,0,\n0,0.5,-0.5,0,0.5,0,0*%\n%ADD19M*%\nD19*\nX0Y5000000D03*\n",
    "turn": HEAD + "%AMM*\n21,1,1.0,0.5,0,0,$1*%\n%ADD19M,-90.0*%\nD19*\nX0Y5000000D03*\n",
}
MIXED = """M48
; DRILL file {KiCad 9.0.2}
; #@! TF.FileFunction,MixedPlating,1,2
METRIC
; #@! TA.AperFunction,Plated,PTH,ComponentDrill
T1C0.400
; #@! TA.AperFunction,NonPlated,NPTH,ComponentDrill
T2C1.500
%
T1
X0.0Y0.0
X10.0Y0.0
T2
X5.0Y0.0
M30
"""
DRILLS: Dict[str, str] = {
    "mixed": MIXED,
    "mixed_unsaid": MIXED.replace("; #@! TA.AperFunction,NonPlated,NPTH,ComponentDrill\n", ""),
    "machine": "M48\nMETRIC,TZ\nM71\nT1C0.4F200S65\n%\nG05\nT1\nX0.0Y0.0\nX10.0Y0.0\nM30\n",
    "inch_words": "%\nT01C0.4\nM72\nX0Y0\nM30\n",
    "slot": "M48\nMETRIC\nT1C0.4\n%\nT1\nX0.0Y0.0G85X10.0Y0.0\nM30\n",
    "unplated_holes": "; TYPE=NON_PLATED\n" + drill((0.0, 0.0), (10.0, 0.0)),
}


def pin(component: str, number: str, name: str, *rest: str) -> List[str]:
    return [f"%TO.P,{component},{number}*%", *label(name), *rest]


def layer(number: int, side: str, *lines: str) -> str:
    return f"%TF.FileFunction,Copper,L{number},{side}*%\n" + gerber(*lines)


def tied() -> Dict[str, Files]:
    pads = flash(10, (0, 0), (10, 0), (4, 0), (6, 0), (0, 5))
    files: Files = {
        "m.json": manifest(),
        "top.gbr": gerber(*pads, *draw(11, (0, 0), (4, 0), (6, 0), (10, 0))),
        "n.ipc": netlist(
            record("GND", "J1.1", 0, 0),
            record("AGND", "U1.3", 10, 0),
            record("GND", "NT1.1", 4, 0),
            record("AGND", "NT1.2", 6, 0),
            record("VCC", "J1.2", 0, 5),
        ),
    }
    short = gerber(*pads, *draw(11, (0, 0), (4, 0), (6, 0), (10, 0)), *draw(11, (0, 5), (0, 2.5), (2, 0)))
    return {
        "not_declared": files,
        "declared": {**files, "ties.txt": "# jumpers\n\n AGND = GND \n"},
        "declared_and_short": {**files, "top.gbr": short, "ties.txt": "AGND=GND\n"},
        "absent": {**files, "top.gbr": gerber(*pads), "ties.txt": "AGND=GND\n"},
        "wrong": {**files, "ties.txt": "AGND\n"},
    }


def labelled() -> Dict[str, Files]:
    long = "Net-(R1-Pad2) of sheet 2"
    top = [
        *pin("R1", "1", "GND"),
        *flash(10, (0, 0)),
        *pin("R1", "2,IN", long),
        *flash(12, (10.000123, 0)),
        *pin("J1000001", "GATE1", long),
        *flash(10, (10, 5)),
        "%TD*%",
        *label("GND"),
        *draw(11, (0, 0), (0, 5)),
        *label(long),
        *draw(11, (10, 0), (10, 5)),
    ]
    bottom = [
        *pin("R1", "1", "GND"),
        *flash(10, (0, 0)),
        *pin("U1", "1", "GND"),
        *flash(12, (5, 0)),
        "%TD*%",
        *label("GND"),
        *draw(11, (0, 0), (5, 0)),
        *pin("U1", "2", "VCC"),
        *flash(12, (5, 5)),
    ]
    holes = drill((0.0, 0.0)).replace("METRIC", "; #@! TF.FileFunction,Plated,1,2,PTH\nMETRIC", 1)
    files: Files = {"top.gbr": layer(1, "Top", *top), "bot.gbr": layer(2, "Bot", *bottom), "p.drl": holes}
    theirs = netlist(
        record("GND", "R1.1", 0, 0, "00"),
        record("OTHER", "R1.2", 10, 0),
        record("GND", "U1.1", 5, 0, "02"),
        record("VCC", "U1.2", 5, 5, "02"),
    )
    several = [*top, *pin("NT1", "1", "GND"), "%TO.N,GND,AGND*%", *flash(10, (20, 0))]
    return {
        "agrees": files,
        "differs": {**files, "top.gbr": layer(1, "Top", *top[:-4])},
        "with_netlist": {**files, "n.ipc": theirs},
        "no_holes": {name: text for name, text in files.items() if name != "p.drl"},
        "several_nets": {**files, "top.gbr": layer(1, "Top", *several)},
        "short": {**files, "bot.gbr": layer(2, "Bot", *bottom, "%TD*%", *draw(11, (5, 0), (5, 5)))},
    }


def fitted() -> Dict[str, Files]:
    files = hinted.files_of()
    moved, swapped = hinted.with_netlist(files, lambda x, y: (x, y), (12345, -678)), json.loads(files["m.json"])
    swapped["copper"].reverse()
    holes = files["p.drl"].replace("X", "X1")
    return {
        "fits": files,
        "moved": moved,
        "mirrored": hinted.with_netlist(files, lambda x, y: (-x, y), (0, 0)),
        "other_unit": hinted.files_of(unit="0"),
        "swapped_layers": {**files, "m.json": json.dumps(swapped)},
        "moved_drills": {**files, "p.drl": holes},
        "decimals": hinted.files_of(number=lambda v: f"{v // 10:06d}"),
        "zeros": hinted.files_of(number=lambda v: f"{v:07d}".rstrip("0"), head="METRIC,LZ"),
        "codes": {**files, "n.ipc": files["n.ipc"].replace("A02X", "A07X")},
    }


def outside() -> Dict[str, Files]:
    found: Dict[str, Files] = {}
    for name, lines in OUTSIDE.items():
        copper = (
            gerber(*draw(11, (-1, 0), (1, 0)), *flash(10, (5, 5)), *lines)
            if name.startswith("clear")
            else gerber(*lines, *flash(10, (5, 5)))
        )
        found[name] = {"m.json": manifest(), "top.gbr": copper, "n.ipc": POINTS}
    profile = "%TF.FileFunction,Profile,NP*%\n" + gerber(*draw(11, (-3, -3), (9, -3), (9, 9), (-3, 9), (-3, -3)))
    found["negative_with_profile"] = {**found["negative"], "edge.gbr": profile}
    above = {
        "bot.gbr": gerber(*draw(11, (-1, 0), (1, 0))),
        "m.json": manifest(["top.gbr", "bot.gbr"], [("p.drl", 1, 2)]),
        "p.drl": drill((1.0, 0.0)),
    }
    found["two_layers"] = {**found["arc"], **above}
    found["short_above"] = {
        **found["arc"],
        "n.ipc": netlist(record("A", "J1.1", 1, 0), record("B", "J1.2", -1, 0), record("A", "J2.1", 5, 5)),
    }
    return found


def mended() -> Dict[str, Files]:
    plain = "%ADD10C,1.0*%\nD10*\nX0Y0D03*\nX10000000Y0D03*\nX0Y0D02*\nX10000000Y0D01*\nM02*\n"
    points = netlist(record("SIG", "J1.1", 0, 0, "00"), record("SIG", "J1.2", 10, 0, "00"))
    both = {
        "m.json": manifest(("top.gbr", "bot.gbr"), [("p.drl", 1, 2)]),
        "bot.gbr": HEAD + plain,
        "p.drl": drill((0.0, 0.0), (10.0, 0.0)),
        "n.ipc": points,
    }
    found: Dict[str, Files] = {
        f"copper_{name}": {**both, "top.gbr": head + plain} for name, head in MENDED_COPPER.items()
    }
    found.update((f"drill_{name}", {**both, "top.gbr": HEAD + plain, "p.drl": text}) for name, text in DRILLS.items())
    return found


def refused() -> Dict[str, Files]:
    files: Files = {
        "m.json": manifest(),
        "top.gbr": gerber(*flash(10, (0, 0), (5, 0))),
        "n.ipc": netlist(record("A", "J1.1", 0, 0), record("A", "J1.2", 5, 0)),
    }
    folder: Files = {
        "a.gtl": HEAD + "%ADD10C,1.0*%\nD10*\nX0Y0D03*\nM02*\n",
        "b.gbl": HEAD + "%ADD10C,1.0*%\nD10*\nX0Y0D03*\nM02*\n",
        "x.drl": drill((0.0, 0.0)),
        "n.ipc": files["n.ipc"],
        "readme.txt": "nothing\n",
    }
    return {
        "not_ended": {**files, "top.gbr": HEAD + "%ADD10C,1.0*%\nD10*\nX0Y0D03*\n"},
        "no_manifest": {**files, "m.json": "{}"},
        "no_json": {**files, "m.json": "x"},
        "missing_file": {name: text for name, text in files.items() if name != "top.gbr"},
        "empty": {"readme.txt": "nothing\n"},
        "guessed": folder,
        "two_netlists": {**folder, "other.ipc": files["n.ipc"]},
        "no_points": {**files, "n.ipc": netlist()},
        "one_point": {**files, "n.ipc": netlist(record("A", "J1.1", 0, 0))},
        "all_apart": {**files, "n.ipc": netlist(record("A", "J1.1", 0, 0), record("B", "J1.2", 5, 0))},
        "joined_unnamed": {
            **files,
            "n.ipc": netlist(record("N/C", "J1.1", 0, 0), record("A", "J1.2", 5, 0), record("A", "J1.3", 5, 0)),
        },
    }


def archive(files: Files) -> bytes:
    made_of = io.BytesIO()
    with zipfile.ZipFile(made_of, "w") as out:
        for name, data in files.items():
            out.writestr(zipfile.ZipInfo(f"board/{name}"), data)
    return made_of.getvalue()


def plain() -> Dict[str, Files]:
    macro = ["%AMA*1,1,1.2,0,0*%", "%ADD20A*%", "D20*", "X0Y0D03*", *draw(11, (0, 0), (5, 0))]
    close = gerber(*flash(10, (0, 0), (1.3, 0)), *flash(12, (0, 1.25)))
    return {
        "all_kinds": pages.BOARD,
        **{
            name.replace("<i>&\"'", "odd_names").replace(" ", "_"): files
            for name, files in pages.ODD.items()
            if name != "32 layers"
        },
        "flattened": {
            "m.json": manifest(),
            "top.gbr": gerber(*macro),
            "n.ipc": netlist(record("A", "J1.1", 0, 0), record("A", "J1.2", 5, 0)),
        },
        "close": {
            "m.json": manifest(),
            "top.gbr": close,
            "n.ipc": netlist(record("A", "J1.1", 0, 0), record("B", "J1.2", 1.3, 0)),
        },
    }


def made() -> Dict[str, Files]:
    """The files of each board by its name."""
    groups = {
        "plain": plain(),
        "outside": outside(),
        "mended": mended(),
        "fitted": fitted(),
        "labels": labelled(),
        "ties": tied(),
        "refused": refused(),
    }
    return {f"{group}_{name}": files for group, its in groups.items() for name, files in its.items()}


def archives() -> Dict[str, bytes]:
    return {"archive.zip": archive(labelled()["agrees"]), "cut_off.zip": archive(labelled()["agrees"])[:300]}
