"""The abstract view as KLayout and Magic read it, beside a plain reading of its lines.

A reading is the size, the box of each pin with its metal, and the obstruction of each metal. Of Magic it has the use and direction of each
pin too.
"""
import re
from dataclasses import dataclass, field

from layout_tools import klayout, magic
from programs import demand, same_sets
from shapes import magic_boxes

MAGIC = """drc off
lef read {lef}
load {top}
save abstract
"""


@dataclass
class Abstract:
    size: tuple = None
    pins: dict = field(default_factory=dict)
    blocked: dict = field(default_factory=dict)
    uses: dict = field(default_factory=dict)


def nanometres(words):
    return tuple(round(float(word) * 1000) for word in words)


def of_lines(path):
    """What the lines of the view say: each pin and obstruction has one box a layer."""
    view, pin, layer = Abstract(), None, None
    for line in path.read_text().splitlines():
        words = line.split()
        if words[:1] == ["SIZE"]:
            view.size = nanometres([words[1], words[3]])
        elif words[:1] == ["PIN"]:
            pin = words[1]
        elif words[:1] == ["OBS"]:
            pin = None
        elif words[:1] == ["DIRECTION"]:
            view.uses[pin] = (words[1],)
        elif words[:1] == ["USE"]:
            view.uses[pin] += (words[1],)
        elif words[:1] == ["LAYER"]:
            layer = words[1]
        elif words[:1] == ["RECT"] and pin is None:
            view.blocked[layer] = nanometres(words[1:5])
        elif words[:1] == ["RECT"]:
            view.pins[pin] = (layer, *nanometres(words[1:5]))
    return view


def of_klayout(macro):
    text = klayout(macro, "klayout_abstract.py", lef=macro.view(".lef").name, top=macro.name)
    view, boxes, labels = Abstract(), [], []
    for kind, layer, *words in (line.split() for line in text.splitlines() if line.startswith(("shape ", "label "))):
        if kind == "label":
            labels.append((layer.removesuffix(".LABEL"), words[0], int(words[1]), int(words[2])))
        elif layer == "OUTLINE":
            demand(words[:2] == ["0", "0"], f"the outline begins at {words[:2]}")
            view.size = (int(words[2]), int(words[3]))
        elif layer.endswith(".OBS"):
            view.blocked[layer.removesuffix(".OBS")] = tuple(map(int, words))
        else:
            boxes.append((layer.removesuffix(".PIN"), *map(int, words)))
    for layer, name, x, y in labels:
        under = [box for box in boxes if box[0] == layer and box[1] <= x <= box[3] and box[2] <= y <= box[4]]
        demand(len(under) == 1, f"{name}: {len(under)} boxes under its label")
        view.pins[name] = under[0]
    return view


def of_magic(macro):
    magic(macro, MAGIC.format(lef=macro.view(".lef").name, top=macro.name))
    saved = macro.folder / "abstract.mag"
    demand(saved.exists(), "Magic saved nothing")
    view, text = Abstract(), saved.read_text()
    size = re.search(r"string FIXED_BBOX 0 0 (\d+) (\d+)", text)
    demand(size, "no size")
    view.size = tuple(map(int, size.groups()))
    label = r"rlabel (\w+) s (\d+) (\d+) (\d+) (\d+) \d+ (\S+)\nport \d+ \w+ (\w+) (\w+)"
    for layer, x1, y1, x2, y2, name, use, direction in re.findall(label, text):
        view.pins[name] = (layer, int(x1), int(y1), int(x2), int(y2))
        view.uses[name] = ({"bidirectional": "INOUT"}.get(direction, direction.upper()), use.upper())
    drawn = magic_boxes(saved)
    for kind, boxes in drawn.items():
        if kind.startswith("blocked_"):
            demand(len(boxes) == 1, f"{kind}: {len(boxes)} boxes")
            view.blocked[kind.removeprefix("blocked_")] = min(boxes)
    painted = {(kind, *box) for kind, boxes in drawn.items() if kind in macro.layers() for box in boxes}
    same_sets("pins' boxes and labels", painted, view.pins.values())
    return view


def compare(macro, found, ports, wanted=None):
    wanted = wanted or of_lines(macro.view(".lef"))
    same_sets("pins and ports of the netlist", found.pins, ports)
    demand(found.size == wanted.size, f"size {found.size}, wanted {wanted.size}")
    same_sets("pins", found.pins.items(), wanted.pins.items())
    same_sets("obstructions", found.blocked.items(), wanted.blocked.items())
    if found.uses:
        same_sets("uses", found.uses.items(), wanted.uses.items())
    uses = ", uses and directions" if found.uses else ""
    return f"{len(wanted.pins)} pins at the same places{uses}, {len(wanted.blocked)} obstructions, size {wanted.size[0]} {wanted.size[1]}"
