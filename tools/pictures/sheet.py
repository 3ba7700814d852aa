"""A picture of boxes, lines and words in nanometres, written as a PNG. It needs pycairo (Debian: python3-cairo)."""
import math
from dataclasses import dataclass

import cairo

FONT = "DejaVu Sans"

COLOURS = {
    "m1": (0.25, 0.45, 0.85), "m2": (0.85, 0.30, 0.30), "m3": (0.20, 0.62, 0.30), "m4": (0.62, 0.35, 0.75),
    "via1": (0.1, 0.1, 0.1), "via2": (0.1, 0.1, 0.1), "via3": (0.1, 0.1, 0.1),
    "cell": (0.55, 0.55, 0.55), "words": (0, 0, 0), "frame": (0.80, 0.45, 0.0), "faint": (0.45, 0.45, 0.45),
}
DENSITY = {"m1": 0.45, "m2": 0.45, "m3": 0.55, "m4": 0.45, "via1": 0.9, "via2": 0.9, "via3": 0.9}


@dataclass(frozen=True)
class Box:
    x1: int
    y1: int
    x2: int
    y2: int

    def placed(self, mirrored, x, y):
        y1, y2 = (-self.y2, -self.y1) if mirrored else (self.y1, self.y2)
        return Box(self.x1 + x, y1 + y, self.x2 + x, y2 + y)


class Sheet:
    """A picture of the stretch from x1, y1 to x2, y2 in nanometres, so many pixels to a nanometre."""

    def __init__(self, x1, y1, x2, y2, scale):
        self.x1, self.y2, self.scale = x1, y2, scale
        self.surface = cairo.ImageSurface(cairo.FORMAT_RGB24, round((x2 - x1) * scale), round((y2 - y1) * scale))
        self.pen = cairo.Context(self.surface)
        self.pen.set_source_rgb(1, 1, 1)
        self.pen.paint()
        self.pen.select_font_face(FONT)

    def at(self, x, y):
        return (x - self.x1) * self.scale, (self.y2 - y) * self.scale

    def path(self, box):
        left, upper = self.at(box.x1, box.y2)
        self.pen.rectangle(round(left), round(upper), round((box.x2 - box.x1) * self.scale), round((box.y2 - box.y1) * self.scale))

    def fill(self, box, colour, weight):
        self.pen.set_antialias(cairo.ANTIALIAS_NONE)
        self.pen.set_source_rgba(*COLOURS[colour], weight)
        self.path(box)
        self.pen.fill()
        self.pen.set_antialias(cairo.ANTIALIAS_DEFAULT)

    def blank(self, box):
        self.pen.set_source_rgb(1, 1, 1)
        self.path(box)
        self.pen.fill()

    def frame(self, box, colour, width=1, dashes=()):
        self.pen.set_source_rgb(*COLOURS[colour])
        self.pen.set_line_width(width)
        self.pen.set_dash(dashes)
        self.path(box)
        self.pen.stroke()
        self.pen.set_dash(())

    def line(self, points, colour="words", width=1):
        self.pen.set_source_rgb(*COLOURS[colour])
        self.pen.set_line_width(width)
        for number, point in enumerate(points):
            (self.pen.line_to if number else self.pen.move_to)(*self.at(*point))
        self.pen.stroke()

    def words(self, text, x, y, size=13, anchor=0.0, colour="words", turned=False, bold=False):
        """Words whose middle height is at y; at x is their left end, with anchor 1 their right end. Turned ones read upwards."""
        self.pen.save()
        self.pen.select_font_face(FONT, cairo.FONT_SLANT_NORMAL, cairo.FONT_WEIGHT_BOLD if bold else cairo.FONT_WEIGHT_NORMAL)
        self.pen.set_font_size(size)
        self.pen.translate(*self.at(x, y))
        if turned:
            self.pen.rotate(-math.pi / 2)
        wide = self.pen.text_extents(text).x_advance
        self.pen.move_to(-anchor * wide, size * 0.36)
        self.pen.text_path(text)
        self.pen.set_source_rgb(1, 1, 1)
        self.pen.set_line_width(4)
        self.pen.set_line_join(cairo.LINE_JOIN_ROUND)
        self.pen.stroke_preserve()
        self.pen.set_source_rgb(*COLOURS[colour])
        self.pen.fill()
        self.pen.restore()

    def save(self, path):
        self.surface.write_to_png(str(path))
        print(path.name, path.stat().st_size, "bytes")
