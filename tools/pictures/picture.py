"""Draws a layout's structure into a PNG file, with KLayout, without a screen.

QT_QPA_PLATFORM=offscreen klayout -b -r tools/pictures/picture.py -rd tech=TECH -rd layout=GDS -rd target=PNG [-rd width=PIXELS]

Layers are drawn over each other in the order of the technology, one colour each, without the outline's layer and without texts.
Needs a KLayout with Python 3.11 or later.
"""
import tempfile
import tomllib

import pya

COLOURS = ["8fb4e3", "333333", "d9776e", "333333", "7dbb7a", "333333", "e0b04c", "b48ec9", "6fc3c3"]
CONFIG = {"background-color": "#ffffff", "text-visible": "false", "grid-visible": "false", "cell-box-visible": "false", "grid-show-ruler": "false"}
LAYER = """<properties><frame-color>#{colour}</frame-color><fill-color>#{colour}</fill-color><dither-pattern>I0</dither-pattern>
<visible>true</visible><source>{number}/{datatype}@1</source></properties>"""


def colours(rules):
    """The layers as KLayout reads them from a file: what is set in a view without a screen isn't drawn."""
    drawn = [layer["gds"] for layer in rules["layer"] if layer["name"] != rules["outline"]]
    layers = (LAYER.format(colour=colour, number=number, datatype=datatype) for colour, (number, datatype) in zip(COLOURS * 8, drawn))
    return f"<?xml version=\"1.0\" encoding=\"utf-8\"?><layer-properties>{''.join(layers)}</layer-properties>"


def main():
    with open(tech, "rb") as file:
        rules = tomllib.load(file)
    view = pya.LayoutView()
    for key, value in CONFIG.items():
        view.set_config(key, value)
    view.load_layout(layout, False)
    with tempfile.NamedTemporaryFile("w", suffix=".lyp") as file:
        file.write(colours(rules))
        file.flush()
        view.load_layer_props(file.name)
    view.max_hier()
    view.zoom_fit()
    box = view.active_cellview().cell.bbox()
    wide = int(globals().get("width", 900))
    view.save_image(target, wide, wide * box.height() // box.width())


main()
