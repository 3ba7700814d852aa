"""Files of an array of bitcells with twenty rules, for the scripts beside this one."""
from gdsfile import array, label, library, rectangle, structure

LAYERS = [("outline", 1), ("m1", 10), ("via1", 11), ("m2", 12), ("via2", 13), ("m3", 14), ("via3", 15), ("m4", 16)]
METALS = ["m1", "m2", "m3", "m4"]
CUTS = ["via1", "via2", "via3"]
RULES = ([("width", m, "", 4) for m in METALS] + [("width", v, "", 2) for v in CUTS]
         + [("space", m, m, 4) for m in METALS] + [("space", v, v, 2) for v in CUTS]
         + [("enclose", v, [METALS[i + k]], 1) for i, v in enumerate(CUTS) for k in (0, 1)])
CONNECTS = [(v, METALS[i : i + 2]) for i, v in enumerate(CUTS)]


MOST_LABELS = 2**22  # flat labels that a layout may have


def bitcell(labelled=True):
    """The cell, with its five labels or without."""
    labels = [label(12, 4, 2, b"bl"), label(12, 28, 2, b"br"), label(10, 2, 16, b"wl"), label(10, 2, 2, b"gnd"), label(10, 2, 30, b"vdd")]
    return structure(
        b"bitcell", rectangle(1, 0, 0, 32, 32), rectangle(10, 0, 0, 32, 4), rectangle(10, 0, 28, 32, 32),
        rectangle(12, 2, 0, 6, 32), rectangle(12, 26, 0, 30, 32), rectangle(10, 0, 14, 32, 18), *(labels if labelled else []))


def rows(cell, pitch, side):
    row = structure(b"row", array(b"bitcell", side, 1, pitch, pitch))
    return library(cell, row, structure(b"t", array(b"row", 1, side, pitch * side, pitch)))
