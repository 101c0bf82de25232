"""Run by klayout -b: reads Gerber or drill files with KLayout's importer and writes answers to tasks, both as JSON.

A task: `files`, names and paths in a folder of its own; `circle`, corners of a full circle; `tolerance` in nanometres;
`of`, a name, and `places` whose states are asked; `borders`, a count of places to choose near its edges, whose states
are told too, `steps` from them and a `seed`; `pairs` of names [a, b, is_both], of which what is in a alone, or in one
alone, is left once its borders are moved in by the tolerance.
"""
import json
import os
import random

import pya

MICROMETRE = 1000
PROJECT = """<?xml version="1.0" encoding="utf-8"?>
<pcb-project>
 <base-dir>%s</base-dir>
 <free-layer-mapping>true</free-layer-mapping>
 <layout-layers><layout-layer>1/0</layout-layer></layout-layers>
 <free-files><free-file><filename>%s</filename><layout-layers><index>0</index></layout-layers></free-file></free-files>
 <num-circle-points>%d</num-circle-points>
 <merge-flag>true</merge-flag>
 <dbu>0.001</dbu>
 <cell-name>PCB</cell-name>
</pcb-project>
"""


def region_of(path, circle):
    """The copper of a file as a region in nanometres."""
    project = path + ".pcb"
    with open(project, "w") as file:
        file.write(PROJECT % (os.path.dirname(path), os.path.basename(path), circle))
    layout = pya.Layout()
    layout.read(project)
    region = pya.Region()
    for cell in layout.top_cells():
        for layer in layout.layer_indexes():
            # Copied: a region over an iterator would outlive its layout.
            region.insert(cell.begin_shapes_rec(layer))
    region.merge()
    return region


def states(region, places, tolerance):
    """1 where a square about a place lies within, 0 where it is outside, else -1."""
    boxes = pya.Region()
    for spot in set(map(tuple, places)):
        x, y = (v * MICROMETRE for v in spot)
        boxes.insert(pya.Box(x - tolerance, y - tolerance, x + tolerance, y + tolerance))
    boxes.merged_semantics = False
    at = lambda box: (box.bbox().center().x // MICROMETRE, box.bbox().center().y // MICROMETRE)
    within, met = ({at(box) for box in some.each()} for some in (boxes.inside(region), boxes.interacting(region)))
    return [1 if tuple(place) in within else -1 if tuple(place) in met else 0 for place in places]


def near(region, count, steps, seed):
    """Places beside edges, in whole micrometres: of edges one by one and of all length alike."""
    every = region.edges()  # held while it is walked
    rng, edges, out = random.Random(seed), [edge for edge in every.each() if edge.length()], []
    long = rng.choices(edges, [edge.length() for edge in edges], k=count // 2) if edges else []
    for edge in long + [rng.choice(edges) for _ in long]:
        far, along = rng.choice(steps) * rng.choice((-1, 1)) * MICROMETRE, rng.randrange(1001)
        x = edge.x1 + along * edge.dx() // 1000 - edge.dy() * far // edge.length()
        y = edge.y1 + along * edge.dy() // 1000 + edge.dx() * far // edge.length()
        out.append([round(x / MICROMETRE), round(y / MICROMETRE)])
    return out


def left(one, other, is_both, tolerance):
    """How many parts are left and their square nanometres, and the box of some."""
    rest = (one ^ other) if is_both else one - other
    rest = rest.sized(-tolerance)
    rest.merge()
    some = [part.bbox() for _, part in zip(range(20), rest.each())]
    boxes = [[box.left, box.bottom, box.right, box.top] for box in some]
    return {"parts": rest.count(), "area": rest.area(), "boxes": boxes}


def answer(task):
    told, regions = {"errors": {}, "left": []}, {}
    for name, path in task["files"].items():
        try:
            regions[name] = region_of(path, task["circle"])
        except RuntimeError as why:
            told["errors"][name] = str(why)
    of = regions.get(task["of"])
    if of is not None:
        told["borders"] = near(of, task["borders"], task["steps"], task["seed"])
        told["states"] = states(of, task["places"] + told["borders"], task["tolerance"])
    for one, other, is_both in task["pairs"]:
        if one in regions and other in regions:
            told["left"].append(left(regions[one], regions[other], is_both, task["tolerance"]))
    return told


with open(tasks) as file:  # noqa: F821, klayout gives it by -rd
    told = [answer(task) for task in json.load(file)]
with open(answers, "w") as file:  # noqa: F821, the same
    json.dump(told, file)
