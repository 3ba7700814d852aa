"""A comb of 10,003 corners as one polygon, which KLayout writes over several XY records: klayout -b -r comb.py -rd target=COMB.gds"""
import pya

layout = pya.Layout()
corners = [pya.Point(400 * tooth + x, y) for tooth in range(2500) for x, y in ((0, 400), (0, 1000), (200, 1000), (200, 400))]
corners += [pya.Point(1000000, 400), pya.Point(1000000, 0), pya.Point(0, 0)]
layout.create_cell("top").shapes(layout.layer(5, 0)).insert(pya.SimplePolygon(corners))
options = pya.SaveLayoutOptions()
options.format = "GDS2"
options.gds2_multi_xy_records = True
options.gds2_write_timestamps = False
options.write_context_info = False
layout.write(target, options)
