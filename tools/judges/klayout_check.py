"""Runs KLayout's checks with the rules of a technology file and counts its markers.

klayout -b -r tools/judges/klayout_check.py -rd tech=TECH -rd gds="GDS..." -rd top=TOP [-rd deep=1]

With `deep` KLayout checks cell by cell, else all shapes as if there were no cells. One line is printed for each file: its name, and for
each rule that has markers the rule's number and how many they are.

A width rule is KLayout's width_check, a space rule on one layer its space_check, a space rule between two layers its
separation_check, and an enclose rule its enclosed_check against the union of the rule's layers, with the parts of cuts that
lie outside of the union. All are with Euclidean distance. docs/COMPARISON.md says where these checks differ from the
program's by definition.
"""
import tomllib

import pya


def region(layout, top, layers, name, store):
    number, datatype = layers[name]
    index = layout.find_layer(number, datatype)
    if index is None:
        return pya.Region()
    shapes = top.begin_shapes_rec(index)
    return pya.Region(shapes, store) if store else pya.Region(shapes)


def markers(rule, get):
    shapes = get(rule["layer"])
    least = rule["min"]
    if rule["kind"] == "width":
        return shapes.width_check(least).count()
    if rule["kind"] == "space" and rule["other"] == rule["layer"]:
        return shapes.space_check(least).count()
    if rule["kind"] == "space":
        return shapes.separation_check(get(rule["other"]), least).count()
    union = pya.Region()
    for name in rule["by"]:
        union += get(name)
    union.merge()
    return shapes.enclosed_check(union, least).count() + (shapes - union).count()


def found(rules, name):
    layers = {layer["name"]: layer["gds"] for layer in rules["layer"]}
    layout = pya.Layout()
    layout.read(name)
    cell = layout.cell(top)
    store = pya.DeepShapeStore() if "deep" in globals() else None
    for number, rule in enumerate(rules["rule"]):
        count = markers(rule, lambda layer: region(layout, cell, layers, layer, store))
        if count > 0:
            yield f"rule {number}: {count}"


def main():
    with open(tech, "rb") as file:
        rules = tomllib.load(file)
    for name in gds.split():
        print(name, ", ".join(found(rules, name)) or "no markers", sep=": ")


main()
