"""A made package of large planes with cut-ins along rows of holes, pads and draws: what `show` takes for it, and its mends alone."""
import os
import random
import sys
import tempfile

import made_board
import runs

ROWS, VOID, STEP = 100, 350_000, 1_000_000  # rows, and holes of a row; nanometres
SIDE = (ROWS + 1) * STEP
NOISY, DRAWS = 1_902, 2_000  # corners of the uneven side, and draws of a layer
AROUND = [
    (-14, 0),
    (-13, 5),
    (-10, 10),
    (-5, 13),
    (0, 14),
    (5, 13),
    (10, 10),
    (13, 5),
    (14, 0),
    (10, -10),
    (5, -13),
    (0, -14),
    (-5, -13),
    (-13, -5),
]
HEAD = [*made_board.COPPER, "%ADD10C,0.3*%", "%ADD11C,0.1*%", "%LPD*%", "G01*"]
TOOLS = os.path.join(runs.TOP, "tools")


def plane(rng):
    """A plane's corners: a row of voids hangs on one cut from the left side, and the right side is uneven."""
    cut = []
    for row in range(ROWS, 0, -1):
        half = lambda xs, part, y=row * STEP: [(x + a * VOID // 14, y + b * VOID // 14) for x in xs for a, b in part]
        xs = [k * STEP for k in range(1, ROWS + 1)]
        cut += [(0, row * STEP), *half(xs, AROUND[:9]), *half(reversed(xs), AROUND[8:] + AROUND[:1]), (0, row * STEP)]
    right = [(SIDE + rng.randint(0, 20_000), k * SIDE // NOISY) for k in range(NOISY)]
    return [(0, 0), *right, (SIDE, SIDE), (0, SIDE), *cut]


def layer(rng):
    spots = plane(rng)
    lines = [*HEAD, *made_board.region(spots), "D10*"]
    lines += [f"X{x * STEP}Y{y * STEP}D03*" for y in range(1, ROWS + 1) for x in range(1, ROWS + 1)]
    lines.append("D11*")
    for _ in range(DRAWS):
        x, y = rng.randrange(1, ROWS) * STEP + STEP // 2, rng.randrange(1, ROWS) * STEP
        lines += [f"X{x}Y{y}D02*", f"X{x}Y{y + STEP // 4}D01*"]
    return [*lines, "M02*"], len(spots)


def write(folder, layers):
    """Writes the package; the edges of a plane."""
    rng = random.Random(1)
    names = [f"l{k}.gbr" for k in range(layers)]
    made = [layer(rng) for _ in names]
    holes = [f"X{x}.0Y{y}.0" for y in range(1, ROWS + 1) for x in range(1, ROWS + 1)]
    points = [
        f"317N{k:<5}           J{k:<5}-1    D0080PA00X+{k % ROWS * 1000 + 1000:06}Y+{k // ROWS * 1000 + 1000:06}X0120Y0000"
        for k in range(ROWS * ROWS)
    ]
    made_board.put(
        folder,
        {
            **{name: lines for name, (lines, _) in zip(names, made)},
            "pth.drl": ["M48", "METRIC", "T1C0.2", "%", "T1", *holes, "M30"],
            "n.ipc": [made_board.NETLIST, *points, "999"],
            "m.json": [made_board.manifest(names, "pth.drl")],
        },
    )
    return made[-1][1]


MENDS = "import sys; sys.path.insert(0, sys.argv[1]); from boardnet_show.intake.mends import copper_mends; [copper_mends.mended(open(name, 'rb').read()) for name in sys.argv[2:]]"


def timed(layers):
    with tempfile.TemporaryDirectory() as folder:
        edges = write(folder, layers)
        files = [os.path.join(folder, f"l{k}.gbr") for k in range(layers)]
        done = runs.run([sys.executable, "-c", MENDS, TOOLS, *files])
        print(
            f"{layers} planes of {edges:,} edges, mends alone: {done.processor:.1f} processor s, {done.held >> 20} MB",
            flush=True,
        )
        for words in ([], ["--page", os.path.join(folder, "page.html")]):
            done = runs.run([sys.executable, os.path.join(TOOLS, "show"), folder, "-q", *words])
            sys.stderr.write(done.notes)
            print(done.out.decode().split("\n")[0].split(": ", 1)[-1])
            print(
                f"show{' with a page' if words else ''}: {done.processor:.1f} processor s, {done.clock:.1f} by the clock, {done.held >> 20} MB in the process that had most",
                flush=True,
            )
