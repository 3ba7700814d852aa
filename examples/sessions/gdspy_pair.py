"""Writes gdspy_pair.gds, the two inverters of examples/pair.gds, by gdspy, which gives references no names: gdspy_pair.py EXAMPLES"""
import datetime
import sys

import gdspy

NANOMETRE = 0.001  # gdspy's unit is that of the file that it reads, a micrometre
library = gdspy.GdsLibrary()
library.read_gds(f"{sys.argv[1]}/kit/demo_tech.gds", units="import")
inverter = library.cell_dict["demo_inv"]
pair = gdspy.Cell("t", exclude_from_current=True)
pair.add([gdspy.CellReference(inverter, (0, 0)), gdspy.CellReference(inverter, (16 * NANOMETRE, 0))])
pair.add(gdspy.Rectangle((10 * NANOMETRE, 28 * NANOMETRE), (22 * NANOMETRE, 32 * NANOMETRE), layer=12))
for text, x, y, layer in (("i", 4, 30, 12), ("o", 28, 30, 12), ("vdd", 1, 30, 10), ("gnd", 1, 1, 10)):
    pair.add(gdspy.Label(text, (x * NANOMETRE, y * NANOMETRE), layer=layer))
library.add(pair)
library.write_gds(f"{sys.argv[1]}/sessions/gdspy_pair.gds", cells=[inverter, pair], timestamp=datetime.datetime(2000, 1, 1))
