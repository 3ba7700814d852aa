"""Demonstration 0, memories of other organisations over its kit, and changes that are refused, where no view is written."""
import struct

from gdsfile import UNITS, structure
from rows.kits import NEAR, NO_FLIP
from rows.row import Row, changed, refused

BUILD = ["build", "demo.toml", "1"]
LINE = "demo rows 16 columns 2 tracks 24 leaves 112 size 844 880\n"
VIEWS = ("demo.sp", "demo.gds", "demo.lef", "demo.v")
INPUTS = ("demo.toml", "demo_tech.toml", "demo_tech.gds", "demo_tech.sp")
# The macro's size, the supplies, and what is obstructed on `m2` and `m3`; the numbers of bits.
LINES = {
    "demo.lef": [
        " SIZE 0.844 BY 0.880 ;\n",
        " RECT 0.828 0.000 0.832 0.880 ;\n",
        " RECT 0.836 0.000 0.840 0.880 ;\n",
        " RECT 0.000 0.000 0.824 0.880 ;\n",
        " RECT 0.008 0.000 0.844 0.880 ;\n",
    ],
    "demo.v": [" parameter DATA_WIDTH = 2;\n", " parameter ADDR_WIDTH = 4;\n"],
}


def at(old, new):
    return "demo.toml", b"", old, new


def coordinates(*numbers):
    return struct.pack(f">{len(numbers)}i", *numbers)


# A change of the configuration, and the line of success.
ORGANISATIONS = {
    "256 words of 32 bits": (
        at(b"word_size = 2\nnum_words = 16\n", b"word_size = 32\nnum_words = 256\n"),
        "demo rows 128 columns 64 tracks 101 leaves 8738 size 2308 5104\n",
    ),
    "masks": (at(b"", b"write_size = 1\n"), "demo rows 16 columns 2 tracks ... leaves 118 size 972 ..."),
    "two banks": (at(b"16\n", b"32\nnum_banks = 2\n"), "demo rows 16 columns 2 tracks ... leaves 202 size 1188 ..."),
    "two banks with masks": (
        at(b"16\n", b"32\nnum_banks = 2\nwrite_size = 1\n"), "demo rows 16 columns 2 tracks ... leaves 208 size 1348 ..."),
    "one port that reads and writes": (at(b"", b"num_rw_ports = 1\n"), LINE),
    "a key without effect": (at(b"", b"nominal_corner_only = true\n"), LINE),
}
# The sense cell and its rails end at 33 in place of 32.
WIDER_SENSE = [
    ("demo_tech.gds", b"demo_sense", coordinates(32, bottom, 32, top), coordinates(33, bottom, 33, top))
    for bottom, top in ((0, 32), (0, 4), (28, 32))
]
MOVED_PIN = ("demo_tech.gds", b"demo_inv", coordinates(4, 22), coordinates(7, 22))
TAKEN_NAME = ("demo_tech.gds", UNITS[-6:], b"", structure(b"demo_row"))

# Changes, and the line that the build is refused with.
REFUSED = {
    "24 words": ([at(b"16\n", b"24\n")], "65 OutOfRange num_words"),
    "8 words in a row of 2": ([at(b"2\n", b"64\nwords_per_row = 8\n")], "66 Shape"),
    "banks that are too small": ([at(b"", b"num_banks = 2\n")], "66 Shape"),
    "three banks": ([at(b"", b"num_banks = 3\n")], "65 OutOfRange num_banks"),
    "masks of 3 of 4 bits": ([at(b"2\n", b"4\nwrite_size = 3\n")], "65 OutOfRange write_size"),
    "spare rows": ([at(b"", b"num_spare_rows = 1\n")], "64 UnknownKey num_spare_rows"),
    "a port that reads": ([at(b"", b"num_r_ports = 1\n")], "65 OutOfRange num_r_ports"),
    "no technology": ([at(b'tech_name = "demo_tech"\n', b"")], "62 Missing tech_name"),
    "a text as a number": ([at(b"2\n", b'"8"\n')], "63 WrongKind word_size"),
    "a keyword of Verilog as the name": ([at(b'"demo"', b'"reg"')], "65 OutOfRange output_name"),
    "a technology that isn't there": ([at(b"demo_tech", b"kit")], "67 NoFile kit.toml"),
    "a flip-flop with another row in its table": ([NO_FLIP], "53 Differs dff 11/00"),
    "a pin whose label isn't on it": ([MOVED_PIN], "54 PinMissing inv a"),
    "a structure with a name of the memory's": ([TAKEN_NAME], "74 NameTaken demo_row"),
    "a sense cell wider than its column": (WIDER_SENSE, "73 SliceTooNarrow sense"),
    "a shape of the bitcell too near to its mirror image": (
        [("demo_tech.gds", b"demo_bitcell", b"", NEAR)], "81 RuleBroken 9 m3 174 363 178 367 m3 174 369 178 373"),
}


def rows(kit):
    for workers in ("1", "64"):
        views = {name: [] for name in (*INPUTS, *VIEWS)}
        yield Row(f"demonstration 0, workers {workers}", ["demo", "0", workers], {}, LINE, views=views)
    yield Row("its memory", BUILD, kit, LINE, views={**{name: [] for name in VIEWS}, **LINES})
    for name, (change, text) in ORGANISATIONS.items():
        yield Row(f"a memory with {name}", BUILD, changed(kit, change), text)
    for name, (changes, line) in REFUSED.items():
        yield refused(f"a build with {name}", BUILD, changed(kit, *changes), line, absent=VIEWS)
