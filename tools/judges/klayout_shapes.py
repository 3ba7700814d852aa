"""Inside KLayout: prints each flat shape of a structure as its layer's numbers and its box.

klayout -b -r klayout_shapes.py -rd gds=GDS -rd top=TOP
"""
import pya

layout = pya.Layout()
layout.read(gds)
for index in layout.layer_indexes():
    info = layout.get_info(index)
    found = layout.cell(top).begin_shapes_rec(index)
    while not found.at_end():
        shape = found.shape()
        if shape.is_box() or shape.is_polygon() or shape.is_path():
            polygon = shape.polygon.transformed(found.trans())
            if not polygon.is_box():
                raise SystemExit(f"no rectangle: {polygon}")
            box = polygon.bbox()
            print("shape", info.layer, info.datatype, box.left, box.bottom, box.right, box.top)
        found.next()
