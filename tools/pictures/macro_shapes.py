"""What a built memory holds, for drawings: its leaf instances and flat shapes, with the nets that the netlist gives them.

It reads what the program writes: rectangles, and instances upright or mirrored. It needs gdspy (Debian: python3-gdspy).
"""
import sys
import warnings
from dataclasses import dataclass

import gdspy
from sheet import Box
from spice_cells import spice_cells

warnings.filterwarnings("ignore", message=".*Record type PROP.*")


@dataclass(frozen=True)
class Leaf:
    """An instance of a leaf cell: its path, its role, its outline, the box of each pin and the net of each."""

    path: str
    role: str
    box: Box
    pins: dict
    nets: dict


class Macro:
    """The macro `top` of a layout and a netlist, over a technology (a document of TOML).

    `leaves` are its leaf instances, `inner` the shapes in them, and `wires` all others, each with the path of the cell that draws it.
    """

    def __init__(self, gds, sp, top, technology):
        self.technology = technology
        self.layers = {tuple(layer["gds"]): layer["name"] for layer in technology["layer"]}
        self.roles = {cell: role for role, cell in technology["role"].items()}
        library = gdspy.GdsLibrary()
        library.read_gds(str(gds), units="convert")
        self.cells, self.scale = library.cell_dict, library.unit / 1e-9
        with open(sp) as file:
            self.circuits = spice_cells(file.read())
        self.leaves, self.wires, self.inner = [], [], []
        self.walk("", top, {port: port for port in self.circuits[top][0]}, False, 0, 0)

    def whole(self, value):
        return round(value * self.scale)

    def boxes(self, cell):
        """The rectangles of a cell itself, with their layers."""
        for polygons in self.cells[cell].polygons:
            for points, layer, datatype in zip(polygons.polygons, polygons.layers, polygons.datatypes):
                xs, ys = [self.whole(x) for x, _ in points], [self.whole(y) for _, y in points]
                if (layer, datatype) in self.layers:
                    yield self.layers[layer, datatype], Box(min(xs), min(ys), max(xs), max(ys))

    def pins(self, cell):
        """The box under each label of a leaf cell; of several the last."""
        shapes = list(self.boxes(cell))
        for label in self.cells[cell].labels:
            x, y = map(self.whole, label.position)
            layer = self.layers[label.layer, label.texttype]
            for kind, box in shapes:
                if kind == layer and box.x1 <= x <= box.x2 and box.y1 <= y <= box.y2:
                    yield label.text, box

    def walk(self, path, cell, nets, mirrored, x, y):
        self.wires += [(path, layer, box.placed(mirrored, x, y)) for layer, box in self.boxes(cell)]
        for (name, below, inner), reference in zip(self.circuits[cell][1], self.cells[cell].references):
            if reference.rotation or reference.ref_cell.name != below:
                sys.exit(f"{cell}: an instance that isn't drawn as the program does")
            turned = bool(reference.x_reflection)
            dx, dy = map(self.whole, reference.origin)
            at = (mirrored != turned, x + dx, y + (-dy if mirrored else dy))
            known = {port: nets.get(net, path + net) for port, net in inner.items()}
            if below in self.roles:
                self.add_leaf(path + name, below, known, at)
            else:
                self.walk(f"{path}{name}/", below, known, *at)

    def add_leaf(self, path, cell, nets, at):
        outline = next(box for layer, box in self.boxes(cell) if layer == self.technology["outline"])
        pins = {name: box.placed(*at) for name, box in self.pins(cell)}
        self.inner += [(layer, box.placed(*at)) for layer, box in self.boxes(cell)]
        self.leaves.append(Leaf(path, self.roles[cell], outline.placed(*at), pins, nets))
