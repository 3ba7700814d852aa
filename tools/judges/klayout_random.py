"""Compares the program's rules with KLayout's checks on random layouts.

klayout -b -r tools/judges/klayout_random.py -rd program=PROGRAM -rd tech=examples/comparison/rules.toml

It makes three kinds of layouts, 1500 of each and the same ones each time: a few boxes, one polygon, and a cut in boxes. For
each kind and rule one line says in how many layouts both find the rule broken, neither, ours alone, and KLayout alone.
"""
import collections
import os
import random
import subprocess
import tempfile

import pya

UPPER, CUT = (10, 0), (11, 0)
WIDTH, SPACE, ENCLOSE = 0, 1, 3
chance = random.Random(5)


def box(low, high, shortest, longest):
    x, y = chance.randrange(low, high), chance.randrange(low, high)
    return pya.Box(x, y, x + chance.randrange(shortest, longest), y + chance.randrange(shortest, longest))


def region(*shapes):
    made = pya.Region()
    for shape in shapes:
        made.insert(shape)
    return made


def some_boxes():
    return {UPPER: [box(0, 24, 4, 12) for _ in range(chance.choice([2, 3, 3, 4]))]}


def one_polygon():
    """The outline of four boxes that hang together and leave no hole, none of whose corners merely touch."""
    while True:
        merged = region(*(box(0, 16, 3, 12) for _ in range(4)))
        merged.min_coherence = True
        polygons = list(merged.merged().each())
        if len(polygons) == 1 and polygons[0].holes() == 0:
            return {UPPER: polygons}


def cut_in_boxes():
    return {CUT: [pya.Box(8, 8, 8 + chance.randrange(1, 4), 8 + chance.randrange(1, 4))],
            UPPER: [box(0, 8, 6, 18) for _ in range(chance.choice([1, 2, 2, 3]))]}


def broken_for_us(shapes, path):
    layout = pya.Layout()
    layout.dbu = 0.001
    cell = layout.create_cell("t")
    for layer, drawn in shapes.items():
        for shape in drawn:
            cell.shapes(layout.layer(*layer)).insert(shape)
    layout.write(path)
    run = subprocess.run([program, "check", tech, path, "t", "1"], stdout=subprocess.PIPE, text=True)
    # A polygon that touches itself at a corner is refused.
    return {int(line.split()[0]) for line in run.stdout.splitlines()} if run.returncode in (0, 1) else None


def broken_for_klayout(shapes):
    upper, cut = region(*shapes[UPPER]), region(*shapes.get(CUT, []))
    counts = {WIDTH: upper.width_check(4).count(), SPACE: upper.space_check(5).count(),
              ENCLOSE: cut.enclosed_check(upper, 4).count() + (cut - upper).count()}
    return {rule for rule, count in counts.items() if count > 0}


def main():
    with tempfile.TemporaryDirectory() as folder:
        path = os.path.join(folder, "random.gds")
        for kind, make, rules in (("boxes", some_boxes, (WIDTH, SPACE)), ("polygon", one_polygon, (WIDTH, SPACE)), ("cut", cut_in_boxes, (ENCLOSE,))):
            found = collections.Counter()
            for _ in range(1500):
                shapes = make()
                ours, theirs = broken_for_us(shapes, path), broken_for_klayout(shapes)
                for rule in rules:
                    found[(rule, "refused") if ours is None else (rule, rule in ours, rule in theirs)] += 1
            for rule in rules:
                print(f"{kind}, rule {rule}: both {found[rule, True, True]}, neither {found[rule, False, False]}, ours alone "
                      f"{found[rule, True, False]}, KLayout alone {found[rule, False, True]}, refused {found[rule, 'refused']}")


main()
