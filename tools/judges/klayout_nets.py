"""Inside KLayout: prints, for each net of a layout, the labels on it, each after the names of the instances that lead to it.

klayout -b -r klayout_nets.py -rd gds=GDS -rd top=TOP -rd tech=TECH
"""
import tomllib

import pya

with open(tech, "rb") as file:
    technology = tomllib.load(file)
layout = pya.Layout()
layout.read(gds)
flat = pya.Layout()
flat.dbu = layout.dbu
whole = flat.create_cell(top)

# A flat copy. Instances have their names in property 1.
for entry in technology["layer"]:
    source, target = layout.layer(*entry["gds"]), flat.layer(*entry["gds"])
    found = layout.cell(top).begin_shapes_rec(source)
    while not found.at_end():
        shape = found.shape()
        if shape.is_text():
            label = shape.text.transformed(found.trans())
            label.string = "".join(element.inst().property(1).lower() + "/" for element in found.path()) + label.string
            whole.shapes(target).insert(label)
        else:
            whole.shapes(target).insert(shape.polygon.transformed(found.trans()))
        found.next()

extraction = pya.LayoutToNetlist(pya.RecursiveShapeIterator(flat, whole, []))
conductors = {name for connection in technology["connect"] for name in connection["to"]}
numbers = {entry["name"]: flat.layer(*entry["gds"]) for entry in technology["layer"]}
drawn = {}
for name in conductors | {connection["cut"] for connection in technology["connect"]}:
    drawn[name] = extraction.make_polygon_layer(numbers[name], name)
    extraction.connect(drawn[name])
    if name in conductors:
        extraction.connect(drawn[name], extraction.make_text_layer(numbers[name], name + " labels"))
for connection in technology["connect"]:
    for name in connection["to"]:
        extraction.connect(drawn[connection["cut"]], drawn[name])
extraction.extract_netlist()
for net in extraction.netlist().circuit_by_name(top).each_net():
    if net.name:
        print("net", *net.name.split(","))
