"""Inside KLayout: prints what it reads of an abstract view, in nanometres.

klayout -b -r klayout_abstract.py -rd lef=LEF -rd top=NAME

Pins and obstructions are on layers NAME.PIN and NAME.OBS, names of pins on NAME.LABEL, and the size is the box of OUTLINE.
"""
import pya

options = pya.LoadLayoutOptions()
options.lefdef_config.dbu = 0.001
layout = pya.Layout()
layout.read(lef, options)
cell = layout.cell(top)
for index in layout.layer_indexes():
    for shape in cell.each_shape(index):
        name = layout.get_info(index).name
        if shape.is_text():
            print("label", name, shape.text_string, shape.text_pos.x, shape.text_pos.y)
        else:
            box = shape.bbox()
            print("shape", name, box.left, box.bottom, box.right, box.top)
