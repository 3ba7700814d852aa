"""Flattens structures and merges each of their layers. Run by tools/inputs/merge_layers, in KLayout, with source, target and tops."""
import os
import sys

import pya

# KLayout doesn't look for modules beside the script.
sys.dont_write_bytecode = True
sys.path.insert(0, os.path.dirname(os.path.abspath(__file__)))
import gds_files


def merged(cell, index):
    """Polygons that don't touch each other; one with a hole, or that touches itself in a corner, in parts."""
    region = pya.Region(cell.begin_shapes_rec(index))
    region.min_coherence = True
    region.merge()
    for polygon in region.each():
        if polygon.holes() > 0:
            yield from polygon.decompose_trapezoids(pya.Polygon.TD_htrapezoids)
        else:
            yield polygon


def main():
    layout = gds_files.read("merge_layers", source)
    made = pya.Layout()
    made.dbu = layout.dbu
    for top in tops.split():
        cell = layout.cell(top)
        if cell is None:
            gds_files.stop("merge_layers", f"no structure is called {top}")
        flat = made.create_cell(top)
        for index in layout.layer_indexes():
            shapes = flat.shapes(made.layer(layout.get_info(index)))
            for polygon in merged(cell, index):
                shapes.insert(polygon)
    made.write(target, gds_files.options())


main()
