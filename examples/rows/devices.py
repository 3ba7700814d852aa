"""A leaf cell of one transistor, drawn and as a subcircuit. Lengths are in nanometres."""
from gdsfile import label, library, rectangle, structure
from rows.row import Row, refused

ACT, GATE, IMP, CON, M1 = 1, 2, 3, 4, 10
# A diffusion, a gate, an implant, a contact and a metal, without a kind of transistors.
LAYERS = """outline = "m1"
[[layer]]
name = "act"
gds = [1, 0]
[[layer]]
name = "gate"
gds = [2, 0]
[[layer]]
name = "imp"
gds = [3, 0]
[[layer]]
name = "con"
gds = [4, 0]
[[layer]]
name = "m1"
gds = [10, 0]
[[connect]]
cut = "con"
to = ["act", "gate", "m1"]
[role]
inv = "t"
"""
DEVICE = '[[device]]\nmodel = "n"\ngate = "gate"\nactive = "act"\nby = "imp"\n'
# From below the diffusion to above it, and one that ends over the diffusion.
WHOLE, SHORT = (8, -2, 10, 8), (8, -2, 10, 4)
TRANSISTOR = ".SUBCKT t a z vdd gnd\nm1 z a gnd gnd n w=1\n.ENDS\n"
DEVICES = ["devices", "k"]

# A gate, a netlist, and the difference.
DRAWN = {
    "a transistor": (WHOLE, TRANSISTOR, ""),
    "a transistor at another net": (WHOLE, ".SUBCKT t a z vdd gnd\nm1 vdd a gnd gnd n\n.ENDS\n", "Absent inv n a gnd vdd\n"),
    "a gate that ends over the diffusion": (SHORT, TRANSISTOR, "NotBox inv 8 0\n"),
}
# A netlist, and the line that it is refused with.
NETLISTS = {
    "a transistor of three nets": (".SUBCKT t a z vdd gnd\nm1 z a gnd n\n.ENDS\n", "101 BadDevice inv 0"),
    "a subcircuit in a leaf cell": (".SUBCKT u\n.ENDS\n.SUBCKT t a z vdd gnd\nx1 u\n.ENDS\n", "102 Nested inv"),
    "no subcircuit of the leaf cell": (".SUBCKT u\n.ENDS\n", "16 UnknownSubckt t"),
}
USAGE = (["devices"], ["devices", ""], ["devices", "k", "1"])


def cell(gate):
    return library(structure(
        b"t",
        rectangle(ACT, 0, 0, 20, 6),
        rectangle(GATE, *gate),
        rectangle(IMP, -2, -2, 22, 8),
        rectangle(CON, 2, 2, 4, 4),
        rectangle(CON, 14, 2, 16, 4),
        rectangle(M1, 0, 0, 6, 6),
        rectangle(M1, 12, 0, 18, 6),
        label(M1, 3, 3, b"gnd"),
        label(M1, 15, 3, b"z"),
        label(GATE, 9, 7, b"a"),
    ))


def files_of(gate, netlist, device=DEVICE):
    return {"k.toml": (LAYERS + device).encode(), "k.gds": cell(gate), "k.sp": netlist.encode()}


def rows(kit):
    for name, (gate, netlist, text) in DRAWN.items():
        yield Row(name, DEVICES, files_of(gate, netlist), text, 1 if text else 0)
    for name, (netlist, line) in NETLISTS.items():
        yield refused(name, DEVICES, files_of(WHOLE, netlist), line)
    # Without a kind of transistors no further file is read.
    yield refused("no kind of transistors", DEVICES, files_of(WHOLE, "?", ""), "103 NoDevices")
    yield refused("no technology file", ["devices", "l"], files_of(WHOLE, "?"), "67 NoFile l.toml")
    for words in USAGE:
        yield Row(" ".join(["the words", *words]), words, files_of(WHOLE, "?"), "openram: 90 Usage\n", 2)
