"""The layout's flat shapes as the program, KLayout, gdspy and Magic read them: sets of boxes x1 y1 x2 y2 of each layer."""
from collections import defaultdict
from pathlib import Path

from layout_tools import klayout, magic, magic_checks, program_checks
from magic_tech import Stack
from programs import Differs, demand, output, python_with, same_sets

HERE = Path(__file__).resolve().parent
WIDEST = 1048576

MAGIC = """puts "faults [drc list count total]"
flatten all_of_it
load all_of_it
save all_of_it
"""


def of_program(macro, program):
    """What `check` reports where every shape is too narrow: all shapes, each once."""
    widest = [{"kind": "width", "layer": name, "min": WIDEST} for name in macro.layers()]
    shapes = defaultdict(set)
    for _, layer, *box in program_checks(macro, program, {**macro.technology, "rule": widest}):
        shapes[layer].add(tuple(map(int, box)))
    return shapes


def of_lines(macro, text):
    """Shapes that a script printed by their layers' numbers."""
    names = {numbers: name for name, numbers in macro.layers().items()}
    shapes = defaultdict(set)
    for line in text.splitlines():
        if line.startswith("shape "):
            layer, datatype, *box = map(int, line.split()[1:])
            name = names.get((layer, datatype))
            demand(name, f"a shape on the layer {layer}/{datatype}")
            shapes[name].add(tuple(box))
    return shapes


def of_klayout(macro):
    return of_lines(macro, klayout(macro, "klayout_shapes.py", gds=macro.view(".gds").name, top=macro.name))


def of_gdspy(macro):
    words = [str(HERE / "gdspy_shapes.py"), macro.view(".gds").name, macro.name]
    return of_lines(macro, output([python_with("gdspy"), *words], macro.folder))


def magic_boxes(path):
    """The boxes of a cell that Magic has saved, by type. The area is cut into other boxes than those that were drawn."""
    boxes, kind = defaultdict(set), None
    for line in path.read_text().splitlines():
        words = line.split()
        if words[:1] == ["<<"]:
            kind = words[1]
        elif words[:1] == ["rect"]:
            boxes[kind].add(tuple(map(int, words[1:5])))
    return boxes


def of_magic(macro):
    """Boxes that Magic makes of the shapes, on each metal those of the cuts that end on it among them; and how many faults it finds."""
    text = magic(macro, magic_checks(macro) + MAGIC)
    faults = [line.split()[1] for line in text.splitlines() if line.startswith("faults ")]
    saved = macro.folder / "all_of_it.mag"
    demand(faults and saved.exists(), "Magic saved nothing")
    return magic_boxes(saved), int(faults[0])


# ---------------------------------------------------------------------------------------------------------------------
# Areas.


def covered_area(boxes):
    """How many unit squares some boxes cover."""
    rows = sorted({y for box in boxes for y in (box[1], box[3])})
    by_start = sorted(boxes, key=lambda box: box[1])
    area, at, live = 0, 0, []
    for low, high in zip(rows, rows[1:]):
        while at < len(by_start) and by_start[at][1] <= low:
            live.append(by_start[at])
            at += 1
        live = [box for box in live if box[3] > low]
        reached, width = None, 0
        for x1, _, x2, _ in sorted(live):
            begin = x1 if reached is None else max(x1, reached)
            if x2 > begin:
                width, reached = width + x2 - begin, x2
        area += width * (high - low)
    return area


def same_areas(name, found, wanted):
    """Refuses two lists of boxes that don't cover the same squares."""
    areas = covered_area(found), covered_area(wanted), covered_area(set(found) | set(wanted))
    demand(len(set(areas)) == 1, f"{name}: covers {areas[0]} squares, and {areas[1]} are wanted; both together cover {areas[2]}")


# ---------------------------------------------------------------------------------------------------------------------
# What is told of a tool.


def compare(found, wanted):
    same_sets("layers", [name for name in found if found[name]], [name for name in wanted if wanted[name]])
    for layer in wanted:
        same_sets(layer, found[layer], wanted[layer])
    return f"{sum(map(len, wanted.values()))} flat shapes on {len(wanted)} layers, each as ours"


def compare_with_magic(macro, wanted):
    found, faults = of_magic(macro)
    stack = Stack(macro.technology)
    for layer in wanted:
        boxes = set().union(*(found[kind] for kind in stack.whole(layer).split(",")))
        same_areas(layer, boxes, wanted[layer])
    demand(faults == 0, f"{faults} faults by the same rules")
    return f"covers the same on {len(wanted)} layers; no fault by the same {len(macro.technology['rule'])} rules"


def wanted_of(macro, program):
    shapes = of_program(macro, program)
    if not shapes:
        raise Differs("the program lists no shape")
    return shapes
