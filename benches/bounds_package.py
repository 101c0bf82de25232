"""A made package whose layers are large planes, tracks, pads, and some arcs, which are outside the profile: how long `show` takes."""
import math
import os
import random
import sys
import tempfile

import made_board
import runs

HEAD = [*made_board.COPPER, "G75*", "%ADD10C,0.2*%", "%ADD11C,0.5*%", "G01*"]


def plane(rng, middle, edges):
    """A ring of corners, in and out."""
    spots = []
    for k in range(edges):
        angle, far = 2 * math.pi * k / edges, 25_000_000 + k % 2 * rng.randint(0, 3_000_000)
        spots.append(tuple(round(v + far * f(angle)) for v, f in zip(middle, (math.cos, math.sin))))
    return made_board.region(spots)


def layer(rng, edges):
    lines = [*HEAD]
    for k in range(4):
        lines += plane(rng, (20_000_000 + 60_000_000 * (k % 2), 20_000_000 + 60_000_000 * (k // 2)), edges // 4)
    lines.append("D10*")
    for k in range(2500):
        x, y = rng.randint(0, 10**8), -rng.randint(5_000_000, 55_000_000)
        lines.append(
            f"X{x}Y{y}D02*\nG01X{x + 500_000}Y{y}D01*"
            + (f"\nG03X{x + 600_000}Y{y + 100_000}I0J100000D01*" if k % 3 == 0 else "")
        )
    return [*lines, "D11*", *(f"X{k * 150_000}Y-60000000D03*" for k in range(2_000)), "M02*"]


def write(folder, layers, edges):
    rng, names = random.Random(3), [f"l{k}.gbr" for k in range(layers)]
    files = {name: layer(rng, edges // layers) for name in names}
    points = [f"327A                J1    -{k + 1}          A01X+{150 * k:06}Y-060000" for k in range(2)]
    made_board.put(
        folder, {**files, "n.ipc": [made_board.NETLIST, *points, "999"], "m.json": [made_board.manifest(names)]}
    )


def timed(layers, edges):
    """Prints what `show` says, and its processor seconds with those of the program, and the most memory that one of them had."""
    with tempfile.TemporaryDirectory() as folder:
        write(folder, layers, edges)
        done = runs.run([sys.executable, os.path.join(runs.TOP, "tools", "show"), folder, "-q"])
    sys.stderr.write(done.notes)
    print(done.out.decode().strip().split(": ", 1)[-1])
    print(
        f"{layers} layers, {edges} edges: {done.processor:.1f} processor seconds, {done.clock:.0f} by the clock, {done.held >> 20} MB"
    )
    return done.status
