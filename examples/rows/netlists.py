"""Two inverters, of which the first drives the second: their nets, and comparisons with netlists."""
import struct

from gdsfile import label, library, record, rectangle, structure, technology, xy
from rows.row import Row, refused

LAYERS = [("outline", 1), ("m1", 10), ("via1", 11), ("m2", 12)]
TECH = (technology(LAYERS, connects=[("via1", ["m1", "m2"])]) + '[role]\ninv = "demo_inv"\n').encode()
PAIR = b".SUBCKT t i o vdd gnd\nxa i m vdd gnd demo_inv\nxb m o vdd gnd demo_inv\n.ENDS\n"
NETLIST = b".SUBCKT demo_inv a z vdd gnd\n.ENDS demo_inv\n" + PAIR
NETS = ["nets", "t.toml", "a.gds", "t"]
COMPARE = ["compare", "t.toml", "a.gds", "a.sp", "t"]
M1, M2 = 10, 12
WIRE = (10, 28, 22, 32)

# A wire on `m2` between the two, and the difference.
WIRED = {
    "two inverters in a row": ([WIRE], ""),
    "without their wire": ([], "Open xa/z xb/a\n"),
    "with a wire too long": ([(2, 28, 22, 32)], "Short i xa/z\n"),
}
# Netlists, each with the line that it is refused with.
REFUSED = {
    "a byte above 127": (b"\x80", "11 NotAscii 0"),
    "a line that isn't read": (b".GLOBAL vdd\n", "15 Refused 1"),
    "a subcircuit without its end": (b".SUBCKT a\n", "13 Unclosed 1"),
    "an instance without words": (b".SUBCKT a\nx1\n.ENDS\n", "19 BadLine 2"),
    "an instance outside": (b"x1 a b\n", "12 OutsideSubckt 1"),
}


def instance(name, x):
    return (record(10, 0) + record(18, 6, b"demo_inv") + xy((x, 0)) + record(43, 2, struct.pack(">h", 1)) + record(44, 6, name)
            + record(17, 0))


def inverter():
    """Its outline, two rails and two pins, with their labels."""
    return structure(
        b"demo_inv",
        rectangle(1, 0, 0, 16, 32),
        rectangle(M1, 0, 0, 16, 4),
        rectangle(M1, 0, 28, 16, 32),
        rectangle(M2, 2, 20, 6, 32),
        rectangle(M2, 10, 20, 14, 32),
        label(M1, 2, 2, b"gnd"),
        label(M1, 2, 30, b"vdd"),
        label(M2, 4, 22, b"a"),
        label(M2, 12, 22, b"z"),
    )


def pair(wires):
    """Two inverters side by side, and these wires."""
    return structure(
        b"t",
        instance(b"xa", 0),
        instance(b"xb", 16),
        *[rectangle(M2, *wire) for wire in wires],
        label(M2, 4, 30, b"i"),
        label(M2, 28, 30, b"o"),
        label(M1, 1, 30, b"vdd"),
        label(M1, 1, 1, b"gnd"),
    )


def files_of(wires, netlist):
    return {"t.toml": TECH, "a.gds": library(inverter(), pair(wires)), "a.sp": netlist}


def of_kit(kit):
    """The same two, behind the demonstration kit's own cells."""
    cells, end = kit["demo_tech.gds"], record(4, 0)
    assert cells.endswith(end)
    for name, (wires, text) in WIRED.items():
        files = {**kit, "t.gds": cells[: -len(end)] + pair(wires) + end, "t.sp": kit["demo_tech.sp"] + PAIR}
        yield Row(f"{name}, of the kit", ["compare", "demo_tech.toml", "t.gds", "t.sp", "t"], files, text, 1 if text else 0)


def rows(kit):
    yield Row("nets of two inverters", NETS, files_of([WIRE], NETLIST), "0 m1 gnd\n1 m2 i\n2 m2 o\n3 m1 vdd\n1 m2 xa/a\n...")
    for name, (wires, text) in WIRED.items():
        yield Row(name, COMPARE, files_of(wires, NETLIST), text, 1 if text else 0)
    for name, (netlist, line) in REFUSED.items():
        yield refused(name, COMPARE, files_of([WIRE], netlist), line)
    yield from of_kit(kit)
