"""The maker of the benches' boards. Most are cells of two copper layers, with through holes and a netlist, by one direct formula for each.

A cell has a round pad, a square pad beside it and a track between them, a plated hole under the round pad, and two test records. Some
cells are broken (no track: an open) and some are bridged to the next one (a track: a short). Lengths are micrometres.
"""
import json
import os

COPPER = "%FSLAX46Y46*%", "%MOMM*%"  # a copper file's beginning, in nanometres
NETLIST = "P  UNITS CUST 1"
COLUMNS, PITCH = 100, 2_500  # as the command `trial` has them, whose files have one decimal


def record(code, name, access, x, y):
    def field(value):
        return ("-" if value < 0 else "+") + "%06d" % abs(value)

    return f"{code}{name:<14}{'':21}A{access}X{field(x)}Y{field(y)}"


def manifest(copper, drill=None):
    """The line of a manifest; a drill file goes through all layers."""
    drills = [{"file": drill, "from": 1, "to": len(copper)}] if drill else []
    return json.dumps({"copper": copper, "drills": drills, "netlist": "n.ipc"}, separators=(",", ":"))


def region(spots):
    """The lines of a region of one contour, which ends where it begins."""
    return ["G36*", "X%dY%dD02*" % spots[0], *("X%dY%dD01*" % spot for spot in spots[1:] + spots[:1]), "G37*"]


def put(folder, files):
    """Writes files of lines into a folder, which is made. How many bytes they have."""
    os.makedirs(folder, exist_ok=True)
    for name, lines in files.items():
        with open(os.path.join(folder, name), "w", encoding="ascii") as file:
            file.write("\n".join(lines) + "\n")
    return sum(os.path.getsize(os.path.join(folder, name)) for name in files)


class Cells:
    """The files of a board of cells, and its copper: layer, kind, x, y, size and where a track ends, in nanometres."""

    def __init__(self, seed, cells, columns=COLUMNS, pitch=PITCH, decimals=3):
        self.decimals, self.copper = decimals, []
        self.disc, self.square, self.line, self.hole, self.beside = (pitch * part // 25 for part in (10, 8, 2, 4, 12))
        self.files = {"m.json": [manifest(["top.gbr", "bot.gbr"], "pth.drl")], **self.heads()}
        t = 12917 + seed % 10000
        for i in range(cells):
            number, x, y = t * (i + 1) // 1000 % 8, pitch * (i % columns), pitch * (i // columns)
            self.cell(i, x, y, number != 0)
            if number == 1 and i % columns != columns - 1 and i + 1 < cells:
                self.track("bot.gbr", "bottom", x, y, x + pitch)
        for name, end in (("top.gbr", "M02*"), ("bot.gbr", "M02*"), ("pth.drl", "M30"), ("n.ipc", "999")):
            self.files[name].append(end)

    def millimetres(self, micrometres):
        return f"{micrometres // 1000}.{micrometres % 1000 // 10 ** (3 - self.decimals):0{self.decimals}d}"

    def heads(self):
        """What the files begin with."""
        disc, square, line, hole = map(self.millimetres, (self.disc, self.square, self.line, self.hole))
        round_one, narrow = f"%ADD10C,{disc}*%", f"%ADD12C,{line}*%"
        return {
            "top.gbr": [*COPPER, round_one, f"%ADD11R,{square}X{square}*%", narrow],
            "bot.gbr": [*COPPER, round_one, narrow],
            "pth.drl": ["M48", "METRIC", f"T1C{hole}", "%", "T1"],
            "n.ipc": [NETLIST],
        }

    def cell(self, i, x, y, is_whole):
        self.flash("top.gbr", "top", 10, "disc", self.disc, x, y)
        self.flash("top.gbr", "top", 11, "square", self.square, x + self.beside, y)
        if is_whole:
            self.track("top.gbr", "top", x, y, x + self.beside)
        self.flash("bot.gbr", "bottom", 10, "disc", self.disc, x, y)
        self.files["pth.drl"].append(f"X{self.millimetres(x)}Y{self.millimetres(y)}")
        self.copper.append(f"drill disc {x * 1000} {y * 1000} {self.hole * 1000}")
        self.files["n.ipc"] += [record("317", f"N{i}", "00", x, y), record("327", f"N{i}", "01", x + self.beside, y)]

    def flash(self, file, layer, aperture, kind, size, x, y):
        self.files[file] += [f"D{aperture}*", f"X{x * 1000}Y{y * 1000}D03*"]
        self.copper.append(f"{layer} {kind} {x * 1000} {y * 1000} {size * 1000}")

    def track(self, file, layer, x, y, to_x):
        self.files[file] += ["D12*", f"X{x * 1000}Y{y * 1000}D02*", f"X{to_x * 1000}Y{y * 1000}D01*"]
        self.copper.append(f"{layer} track {x * 1000} {y * 1000} {self.line * 1000} {to_x * 1000}")


def write(folder, seed, size):
    """The board of the command `trial`, byte for byte."""
    put(folder, Cells(seed, size, decimals=1).files)
