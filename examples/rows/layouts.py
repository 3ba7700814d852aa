"""Layouts that are checked, each by 1, 2 and 64 workers. Lengths are in nanometres."""
import struct

from gdsfile import array, boundary, library, record, rectangle, reference, structure, xy
from rows.row import Row, refused

WORKERS = ("1", "2", "64")
M1 = b'outline = "m1"\n[[layer]]\nname = "m1"\ngds = [10, 0]\n'
WIDTH = b'[[rule]]\nkind = "width"\nlayer = "m1"\nmin = %d\n'
SPACE = b'[[rule]]\nkind = "space"\nlayer = "m1"\nother = "m1"\nmin = 5\n'
PLAIN = M1 + WIDTH % 4 + SPACE
# A width rule that each shape breaks, so that the report lists the shapes.
WIDE = M1 + WIDTH % 1000
# Cuts `v` are enclosed by `m1` on all sides by 1.
CUT = b'[[layer]]\nname = "v"\ngds = [11, 0]\n'
ENCLOSED = M1 + CUT + WIDTH % 4 + SPACE + b'[[rule]]\nkind = "enclose"\nlayer = "v"\nby = ["m1"]\nmin = 1\n'

# Rectangles on a layer with a width rule of 4 and a space rule of 5, and the report.
REPORTS = {
    "no shape": ([], ""),
    "9 apart": ([(0, 0, 4, 4), (9, 0, 13, 4)], ""),
    "4 apart": ([(0, 0, 4, 4), (8, 0, 12, 4)], "1 m1 0 0 4 4 m1 8 0 12 4\n"),
    "corners meet": ([(0, 0, 4, 4), (4, 4, 8, 8)], "1 m1 0 0 4 4 m1 4 4 8 8\n"),
    "5 apart across": ([(0, 0, 4, 4), (7, 8, 11, 12)], ""),
    "less than 5 apart across": ([(0, 0, 4, 4), (7, 7, 11, 11)], "1 m1 0 0 4 4 m1 7 7 11 11\n"),
    "gap filled": ([(0, 0, 10, 4), (0, 6, 10, 10), (0, 4, 10, 6)], ""),
    "gap filled in part": (
        [(0, 0, 10, 4), (0, 6, 10, 10), (0, 4, 10, 5), (0, 5, 9, 6)],
        "1 m1 0 0 10 4 m1 0 6 10 10\n1 m1 0 4 10 5 m1 0 6 10 10\n",
    ),
}
POLYGONS = {
    "a neck of 1": ([(0, 0), (10, 0), (10, 4), (6, 4), (6, 9), (10, 9), (10, 13), (0, 13), (0, 9), (5, 9), (5, 4), (0, 4)], "0 m1 5 4 6 9\n"),
    "an L": ([(0, 0), (20, 0), (20, 4), (4, 4), (4, 20), (0, 20)], ""),
}
# A cut in a rectangle of `m1` from 0, 0 to 6, 6.
CUTS = {
    "a cut 2 inside": ((2, 2, 4, 4), ""),
    "a cut at the edge": ((4, 2, 6, 4), "2 v 4 2 6 4\n"),
}
# The kind of a path, which turns once; its shapes.
PATHS = {
    "a path that ends flush": (0, "0 m1 0 -2 22 2\n0 m1 18 -2 22 20\n"),
    "a path that ends half its width later": (2, "0 m1 -2 -2 22 2\n0 m1 18 -2 22 22\n"),
}
SIX = (
    "0 m1 80 -10 100 0\n0 m1 80 30 100 40\n0 m1 180 -10 200 0\n0 m1 180 30 200 40\n0 m1 280 -10 300 0\n0 m1 280 30 300 40\n"
)


def of_boxes(*boxes):
    return library(structure(b"t", *[rectangle(layer, *box) for layer, box in boxes]))


def path(kind, *points):
    """A path of width 4 on `m1`."""
    return (record(9, 0) + record(13, 2, struct.pack(">h", 10)) + record(14, 2, bytes(2)) + record(33, 2, struct.pack(">h", kind))
            + record(15, 3, struct.pack(">i", 4)) + xy(*points) + record(17, 0))


def turned(name, x, y):
    """A reference that reflects and turns by 270 degrees."""
    return (record(10, 0) + record(18, 6, name + b"\0") + record(26, 1, bytes([0x80, 0])) + record(28, 5, bytes.fromhex("4310E00000000000"))
            + xy((x, y)) + record(17, 0))


def six_shapes():
    """A cell that is reflected and turned, in an array of three columns and two rows."""
    return library(
        structure(b"c", rectangle(10, 0, 0, 10, 20)),
        structure(b"b", turned(b"c", 100, 0)),
        structure(b"t", array(b"b", 3, 2, 100, 40)),
    )


def dropped_records():
    """GENERATIONS after LIBNAME and PLEX after BOUNDARY."""
    plain = of_boxes((10, (0, 0, 4, 4)), (10, (8, 0, 12, 4)))
    name, start = record(2, 6, b"a\0"), record(8, 0)
    assert plain.count(name) == 1 and plain.count(start) == 2
    return plain.replace(name, name + record(34, 2, bytes([0, 3]))).replace(start, start + record(47, 3, bytes([0, 0, 0, 1])))


def long_chain():
    """34 structures, each of which refers to the next."""
    names = [b"t", *[bytes([ord("A") + place]) for place in range(33)]]
    inner = [structure(name, reference(below, 0, 0)) for name, below in zip(names, names[1:])]
    return library(*inner, structure(names[-1]))


def square():
    return structure(b"c", rectangle(10, 0, 0, 10, 10))


def large_array(name, cell):
    return structure(name, array(cell, 32767, 32767, 1, 1))


def refusals():
    """Layouts that are refused, each with its line."""
    small = structure(b"c", rectangle(10, 0, 0, 4, 4))
    yield "a structure in itself", library(structure(b"t", reference(b"b", 0, 0)), structure(b"b", reference(b"t", 0, 0))), "32 Cycle b"
    yield "34 levels", long_chain(), "33 TooDeep 33"
    yield "a corner beyond 31 bits", library(small, structure(b"t", reference(b"c", 2147483646, 0))), "35 Far 2147483650 0"
    yield "an array of 32767 by 32767", library(square(), large_array(b"t", b"c")), "34 TooMany 1073676289 0"
    twice = library(square(), large_array(b"b", b"c"), large_array(b"t", b"b"))
    yield "an array of 32767 by 32767 such arrays", twice, "34 TooMany 4294967296 0"


def reports():
    """Layouts, each with its technology and its report."""
    for name, (boxes, text) in REPORTS.items():
        yield name, PLAIN, of_boxes(*[(10, box) for box in boxes]), text
    for name, (points, text) in POLYGONS.items():
        yield name, PLAIN, library(structure(b"t", boundary(10, points))), text
    for name, (cut, text) in CUTS.items():
        yield name, ENCLOSED, of_boxes((10, (0, 0, 6, 6)), (11, cut)), text
    for name, (kind, text) in PATHS.items():
        yield name, WIDE, library(structure(b"t", path(kind, (0, 0), (20, 0), (20, 20)))), text
    yield "a cell turned in an array", WIDE, six_shapes(), SIX
    yield "records that are dropped", PLAIN, dropped_records(), "1 m1 0 0 4 4 m1 8 0 12 4\n"


def rows(kit):
    for workers in WORKERS:
        words = ["check", "t.toml", "a.gds", "t", workers]
        for name, rules, layout, text in reports():
            yield Row(f"{name}, workers {workers}", words, {"t.toml": rules, "a.gds": layout}, text, 1 if text else 0)
        for name, layout, line in refusals():
            yield refused(f"{name}, workers {workers}", words, {"t.toml": PLAIN, "a.gds": layout}, line)
