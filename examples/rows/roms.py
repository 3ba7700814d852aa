"""Read-only memories: 16 words of 2 bits, over the kit of demonstration 0 with the two cells that hold a fixed bit."""
from gdsfile import UNITS, record, structure
from rows.row import Row, changed, refused

# The word at each address is the address modulo 4, in a byte.
WORDS = bytes([0, 1, 2, 3] * 4)
LINE = "demo rows 16 columns 2 tracks 19 leaves 102 size 660 808\n"
VIEWS = ("demo.sp", "demo.gds", "demo.lef", "demo.v")
# The macro's size, and the words at addresses 5 and 11.
LINES = {
    "demo.sp": [],
    "demo.gds": [],
    "demo.lef": [" SIZE 0.660 BY 0.808 ;\n"],
    "demo.v": ["    mem[5] = 2'h1;\n", "    mem[11] = 2'h3;\n"],
}
# The roles of the two cells and their tables, and their subcircuits, which are wired as the bitcell's.
CELLS = (
    ("demo_tech.toml", b"[role]\n", b"", b'rom0 = "demo_rom0"\nrom1 = "demo_rom1"\n'),
    ("demo_tech.toml", b"[table]\n", b"", b'rom0 = ["0/ = zz//", "1/ = lz//"]\nrom1 = ["0/ = zz//", "1/ = zl//"]\n'),
    ("demo_tech.sp", b"", b"",
     b".SUBCKT demo_rom0 bl br wl vdd gnd\n.ENDS demo_rom0\n.SUBCKT demo_rom1 bl br wl vdd gnd\n.ENDS demo_rom1\n"),
)
# A change of the configuration, the data file, and the line that the memory is refused with.
REFUSED = {
    "a byte too few": (b"", b"", WORDS[:15], "111 DataLength 15"),
    "a word of 3 bits": (b"", b"", WORDS[:9] + b"\x04" + WORDS[10:], "112 DataBits 9"),
    "two banks": (b"16\n", b"32\nnum_banks = 2\n", WORDS, "113 NotRom num_banks"),
    "two banks that are too small": (b"", b"num_banks = 2\n", WORDS, "113 NotRom num_banks"),
    "masks": (b"", b"write_size = 1\n", WORDS, "113 NotRom write_size"),
}


def with_cells(layout):
    """The layout with the structures of the two cells, which are drawn as the bitcell."""
    end = record(7, 0)
    elements = layout.split(b"demo_bitcell", 1)[1].split(end, 1)[0]
    head, cells = layout.split(UNITS, 1)
    return head + UNITS + structure(b"demo_rom0", elements) + structure(b"demo_rom1", elements) + cells


def words_of(workers):
    return ["rom", "demo.toml", "rom.bin", workers]


def rows(kit):
    own = {**changed(kit, *CELLS), "demo_tech.gds": with_cells(kit["demo_tech.gds"])}
    whole = {**own, "rom.bin": WORDS}
    for workers in ("1", "64"):
        yield Row(f"a read-only memory, workers {workers}", words_of(workers), whole, LINE, views=LINES)
    for name, (old, new, data, line) in REFUSED.items():
        files = {**changed(own, ("demo.toml", b"", old, new)), "rom.bin": data}
        yield refused(f"a read-only memory with {name}", words_of("1"), files, line, absent=VIEWS)
    # Such a kit is refused before the data file is read.
    yield refused("a read-only memory over a kit without the two cells", words_of("1"), kit, "51 MissingRole rom0", absent=VIEWS)
    yield refused("a read-only memory without its data", words_of("1"), own, "67 NoFile rom.bin", absent=VIEWS)
