"""Prints each flat shape of a structure as its layer's numbers and its box, read by gdspy.

gdspy_shapes.py GDS TOP
"""
import sys

import gdspy

library = gdspy.GdsLibrary()
library.read_gds(sys.argv[1], units="convert")
scale = library.unit / 1e-9
for (layer, datatype), polygons in library.cell_dict[sys.argv[2]].get_polygons(by_spec=True).items():
    for polygon in polygons:
        points = [(round(x * scale), round(y * scale)) for x, y in polygon]
        xs, ys = sorted({x for x, _ in points}), sorted({y for _, y in points})
        if len(points) != 4 or len(xs) != 2 or len(ys) != 2:
            sys.exit(f"no rectangle: {points}")
        print("shape", layer, datatype, xs[0], ys[0], xs[1], ys[1])
