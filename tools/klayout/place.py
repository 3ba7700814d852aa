"""Reads a placed or routed DEF with the layout of its macros, and writes GDSII whose numbers are those of a technology.

klayout -b -r tools/klayout/place.py -rd tech=TECH -rd lef="TECHNOLOGY.lef NAME.lef" -rd layout=NAME.gds -rd design=CHIP.def -rd target=CHIP.gds

Instances get their names of the DEF as property 1, with an x before them, as they are called in SPICE. Needs a KLayout with Python 3.11 or later.
"""
import os
import sys

# KLayout doesn't look for modules beside the script.
sys.dont_write_bytecode = True
sys.path.insert(0, os.path.dirname(os.path.abspath(__file__)))
import gds_files
import placed_design

made = placed_design.placed_design(placed_design.technology(tech), lef.split(), [layout], design)
made.write(target, gds_files.options())
