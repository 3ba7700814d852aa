"""Layouts with other bytes: cut anywhere, changed, or with more at their end."""
from gdsfile import UNITS, library, record, rectangle, reference, structure
from rows.layouts import PLAIN
from rows.row import Row, refused

CHECK = ["check", "t.toml", "a.gds", "t", "1"]
ONE = library(structure(b"t", rectangle(10, 0, 0, 4, 4)))
# Where the records of ONE begin.
STARTS = (0, 6, 34, 40, 60, 88, 94, 98, 104, 110, 154, 158, 162)
LENGTH = 166

# Bytes at a place of ONE, and the line that it is refused with.
CHANGES = {
    "a length of 0 at BGNSTR": (60, [0, 0], "2 BadRecord 60 1282"),
    "ENDSTR in place of ENDEL": (156, [7, 0], "3 NotInPlace 154 1792"),
    "units below what rounding explains": (58, [0x59, 0x53], "4 BadUnits 40"),
    "units above what rounding explains": (58, [0x5B, 0x55], "4 BadUnits 40"),
    "units of another exponent": (52, [0x3C], "4 BadUnits 40"),
    "a closing point that isn't the first": (147, [1], "5 NotManhattan 110"),
}
# Ends of the second real of UNITS that rounding explains.
ROUNDED = ("5954", "5A51", "5A53", "5B54")


def files_of(layout):
    return {"t.toml": PLAIN, "a.gds": layout}


def changes():
    assert len(ONE) == LENGTH
    for name, (place, other, line) in CHANGES.items():
        yield refused(name, CHECK, files_of(ONE[:place] + bytes(other) + ONE[place + len(other):]), line)
    for ends in ROUNDED:
        yield Row(f"units that end in {ends}", CHECK, files_of(ONE.replace(UNITS, UNITS[:-2] + bytes.fromhex(ends))))


def ends():
    yield Row("zero bytes at the end", CHECK, files_of(ONE + bytes(6)))
    yield refused("another byte at the end", CHECK, files_of(ONE + b"\x07"), "8 TrailingBytes 166")
    again = ONE[:162] + structure(b"t") + record(4, 0)
    yield refused("a second structure of the same name", CHECK, files_of(again), "10 Twice 190")


def loops():
    loop = files_of(library(structure(b"a", reference(b"b", 0, 0)), structure(b"b", reference(b"a", 0, 0))))
    yield refused("two structures that refer to each other", ["check", "t.toml", "a.gds", "a", "1"], loop, "32 Cycle a")
    yield refused("beside them, a structure that isn't there", ["check", "t.toml", "a.gds", "z", "1"], loop, "31 UnknownStruct z")


def rows(kit):
    for left in range(LENGTH):
        start = max(start for start in STARTS if start <= left)
        yield refused(f"a file cut to {left} bytes", CHECK, files_of(ONE[:left]), f"1 Truncated {start}")
    yield from changes()
    yield from ends()
    yield from loops()
