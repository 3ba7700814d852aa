"""Rewrites a layout so that the program reads it. Run by tools/inputs/tidy_gds, in KLayout, with source and target."""
import os
import sys
import tempfile

import pya

# KLayout doesn't look for modules beside the script.
sys.dont_write_bytecode = True
sys.path.insert(0, os.path.dirname(os.path.abspath(__file__)))
import gds_files

NANOMETRE = 0.001
MOST_POINTS = 8190  # of a boundary; KLayout's own way to split one leaves seams that the space rule may take for gaps
notes = {}


def note(what, cell, box):
    """Keeps the first place of each kind of change, and how many there are."""
    place, count = notes.get(what, (f"{cell.name} {box.left} {box.bottom} {box.right} {box.top}", 0))
    notes[what] = (place, count + 1)


def in_nanometres(layout):
    """The layout with one nanometre as its unit."""
    if abs(layout.dbu - NANOMETRE) < 1e-12:
        return layout
    steps = layout.dbu / NANOMETRE
    if abs(steps - round(steps)) > 1e-9:
        print(f"tidy_gds: a unit was {layout.dbu * 1000:g} nm: coordinates between whole nanometres are rounded", file=sys.stderr)
    options = pya.SaveLayoutOptions()
    options.format = "OASIS"
    options.dbu = NANOMETRE
    with tempfile.NamedTemporaryFile(suffix=".oas") as file:
        layout.write(file.name, options)
        scaled = pya.Layout()
        scaled.read(file.name)
    return scaled


def is_kept(path):
    """Whether the program reads this path as it is: an even width, ends that are flush or square, right angles."""
    points = list(path.each_point())
    half = path.width // 2
    ends = (path.bgn_ext, path.end_ext)
    straight = all((a.x == b.x) != (a.y == b.y) for a, b in zip(points, points[1:]))
    return len(points) > 1 and path.width > 0 and path.width % 2 == 0 and not path.is_round() and ends in ((0, 0), (half, half)) and straight


def polygon_of(shape, cell):
    """The polygon that the shape draws, or None where it draws nothing."""
    if not shape.is_path():
        return shape.polygon
    path = shape.path
    if path.width == 0:
        note("path without a width, left out", cell, shape.bbox())
        return None
    if path.is_round():
        note("path with round ends, drawn with square ones", cell, shape.bbox())
        path = pya.Path(list(path.each_point()), path.width, path.width // 2, path.width // 2, False)
    if path.width % 2 == 1:
        note("path of an odd width, its sides rounded to nanometres", cell, shape.bbox())
    return path.polygon()


def parts(polygon):
    """Polygons without holes that don't touch themselves, and cover the same."""
    region = pya.Region(polygon)
    region.min_coherence = True
    region.merge()
    for it in region.each():
        if it.is_rectilinear() and (it.holes() > 0 or it.num_points() > MOST_POINTS):
            yield from it.decompose_trapezoids(pya.Polygon.TD_htrapezoids)
        else:
            yield it


def redraw(cell, shapes):
    for shape in [it for it in shapes.each() if it.is_polygon() or it.is_path()]:
        if shape.is_path() and is_kept(shape.path):
            continue
        polygon = polygon_of(shape, cell)
        drawn = [] if polygon is None else list(parts(polygon))
        if any(not it.is_rectilinear() for it in drawn):
            note("slanted sides, which the program refuses", cell, shape.bbox())
        shapes.erase(shape)
        for it in drawn:
            shapes.insert(it)


def flatten_complex(cell):
    """An instance that is turned by another angle than a right one, or magnified, becomes the shapes that it draws."""
    for instance in [it for it in cell.each_inst() if it.is_complex()]:
        note("instance that is magnified or turned by no right angle, flattened: its labels lose its name", cell, instance.bbox())
        instance.flatten()


def write(layout):
    options = gds_files.options()
    options.gds2_write_file_properties = False
    options.gds2_write_cell_properties = False
    options.gds2_multi_xy_records = False
    options.gds2_max_vertex_count = MOST_POINTS + 1
    options.gds2_resolve_skew_arrays = True
    layout.write(target, options)


def main():
    layout = in_nanometres(gds_files.read("tidy_gds", source))
    for cell in layout.each_cell():
        flatten_complex(cell)
    for cell in layout.each_cell():
        for index in layout.layer_indexes():
            redraw(cell, cell.shapes(index))
    write(layout)
    for what, (place, count) in notes.items():
        print(f"tidy_gds: {what}: {count}, the first in {place}", file=sys.stderr)


main()
