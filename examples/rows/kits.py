"""Changes of the kit of demonstration 0 that make it weak, and kits that are refused."""
from gdsfile import label, rectangle
from rows.row import Row, changed, refused

KIT = ["kit", "demo_tech", "1"]
M1, M3 = 10, 14
# On `m3`, too near to its mirror image where bitcells abut.
NEAR = rectangle(M3, 14, 27, 18, 31)
NO_FLIP = ("demo_tech.toml", b"", b"11/x0 = 1//11", b"11/x0 = 0//01")


def before_connections(rule):
    return "demo_tech.toml", b"", b"[[connect]]\n", b"[[rule]]\n" + rule + b"\n[[connect]]\n"


# A change, and the line of the weakness.
WEAK = {
    "a rule between two metals": (before_connections(b'kind = "space"\nlayer = "m1"\nother = "m2"\nmin = 1\n'), "Weak Layer 20\n"),
    "a cut joined with a metal that isn't beside it": (
        ("demo_tech.toml", b'cut = "via2"\n', b'to = ["m2", "m3"]', b'to = ["m2", "m3", "m4"]'), "Weak Joint 1\n"),
    "a width that more than neighbours feel": (before_connections(b'kind = "width"\nlayer = "outline"\nmin = 13\n'), "Weak Reach 13\n"),
    "a label of the input on the supply": (("demo_tech.gds", b"demo_inv", b"", label(M1, 1, 30, b"a")), "Weak Pin inv a\n"),
    "a shape of the bitcell too near to its mirror image": (("demo_tech.gds", b"demo_bitcell", b"", NEAR), "Weak Window 1 1 1 16 1 81\n"),
}
USAGE = (["kit", "demo_tech"], ["kit", "demo_tech", "0"], ["kit", "demo_tech", "65"], ["kit", "", "1"])
WIRE = b'[wire]\nwidth = 4\nspace = 4\ncut = 2\nmetals = ["m1", "m2", "m3", "m4"]\ncuts = ["via1", "via2", "via3"]\n\n'


def rows(kit):
    for name, (change, text) in WEAK.items():
        yield Row(f"a kit with {name}", KIT, changed(kit, change), text, 1)
    for words in USAGE:
        yield Row(" ".join(["the words", *words]), words, kit, "openram: 90 Usage\n", 2)
    yield refused("a kit without wires", KIT, changed(kit, ("demo_tech.toml", b"", WIRE, b"")), "50 NoWire")
    yield refused("a kit that isn't there", ["kit", "other", "1"], kit, "67 NoFile other.toml")
    yield refused("a kit's flip-flop with another row in its table", KIT, changed(kit, NO_FLIP), "53 Differs dff 11/00")
