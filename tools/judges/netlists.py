"""Which pins of leaf cells are on one net, as the .sp says, as netgen and ngspice read it, and as tools find it in the layout.

All come as a partition: the pins of all leaf instances and the ports of the memory, each with its path, as a set of sets.
"""
import re
import subprocess
from collections import defaultdict
from pathlib import Path

from layout_tools import klayout, magic
from macros import with_property
from programs import demand, last_line, output, run, same_sets
from spice_cells import spice_cells

FLOW = Path(__file__).resolve().parent.parent / "flow"
TECH = "demo_tech.toml"


def partition(net_of):
    """The sets of pins that have one net; a net without a pin counts nothing."""
    pins = defaultdict(set)
    for pin, net in net_of.items():
        pins[net].add(pin)
    return {frozenset(group) for group in pins.values()}


def compare(found, wanted):
    """Says how many pins and nets agree, or which pin is on another net."""
    same_sets("pins", set().union(*found), set().union(*wanted))
    apart = sorted((sorted(net) for net in wanted - found), key=lambda pins: (len(pins), pins))
    demand(not apart, f"not a net: {' '.join(apart[0][:3]) if apart else ''}")
    return f"{sum(map(len, wanted))} pins on {len(wanted)} nets, each as ours"


# ---------------------------------------------------------------------------------------------------------------------
# A netlist with levels: for each cell its ports and its instances as (name, cell, nets by port).


def flat_nets(cells, top, leaves):
    """The net of each port of the top and of each pin of a leaf instance."""
    found = {}

    def walk(path, cell, nets):
        ports, instances = cells[cell]
        for name, below, inner in instances:
            inside = {port: nets.get(net, (path, net)) for port, net in inner.items()}
            if below in leaves:
                found.update({f"{path}{name}/{port}": net for port, net in inside.items()})
            else:
                walk(f"{path}{name}/", below, inside)

    ports = {port: ("", port) for port in cells[top][0]}
    found.update(ports)
    walk("", top, ports)
    return found


def of_spice(macro):
    return partition(flat_nets(spice_cells(macro.view(".sp").read_text()), macro.name, macro.roles()))


def ports_of(macro):
    return spice_cells(macro.view(".sp").read_text())[macro.name][0]


# ---------------------------------------------------------------------------------------------------------------------
# netgen reads the netlist; it prints each subcircuit's pins with the number of their net.


def netgen_cell(text):
    """One subcircuit as netgen's `instances` and `contents` print it. An instance xNAME of a cell CELL is printed as CELLNAME."""
    kinds = dict(re.findall(r"^(\S+) \(class: (\S+)\)", text, re.M))
    ports, pins = {}, defaultdict(dict)
    for name, kind, number in re.findall(r"^(\S+)\s+(port|pin \d+)\s+Net #: (\d+)", text, re.M):
        if kind == "port":
            ports[name] = number
        else:
            instance, _, port = name.rpartition("/")
            pins[instance][port] = number
    return list(ports), [("x" + name.removeprefix(kind), kind, pins[name]) for name, kind in kinds.items()], ports


def of_netgen(macro):
    cells = [cell for cell in spice_cells(macro.view(".sp").read_text()) if cell not in macro.roles()]
    lines = [f"readnet spice {macro.view('.sp').name}"]
    for cell in cells:
        lines += [f'puts "cell {cell}"', f"instances {cell}", f"contents {cell}"]
    (macro.folder / "netgen.tcl").write_text("\n".join([*lines, "quit"]) + "\n")
    parts = re.split(r"^cell (\S+)$", output(["netgen-lvs", "-batch", "source", "netgen.tcl"], macro.folder), flags=re.M)
    read = {cell: netgen_cell(text) for cell, text in zip(parts[1::2], parts[2::2])}
    # A net is known by its number; those of ports go by the ports' names.
    named = {}
    for cell, (ports, instances, numbers) in read.items():
        names = {number: port for port, number in numbers.items()}
        named[cell] = (ports, [(name, kind, {port: names.get(net, net) for port, net in pins.items()}) for name, kind, pins in instances])
    demand(macro.name in named, "netgen prints no such cell")
    return partition(flat_nets(named, macro.name, macro.roles()))


# ---------------------------------------------------------------------------------------------------------------------
# ngspice reads the netlist by .include and lists it without levels. In the macro that it reads each pin of a leaf cell has a resistor.


def with_resistors(text):
    """The kit's subcircuits, with a resistor from each port to ground, which a build keeps as it stands."""
    lines = []
    for line in text.splitlines():
        lines.append(line)
        words = line.split()
        if words[:1] == [".SUBCKT"]:
            lines += [f"r{port} {port} 0 1k" for port in words[2:]]
    return "\n".join(lines) + "\n"


def of_ngspice(macro):
    """The nodes of all resistors. ngspice takes gnd and 0 for one node wherever they stand."""
    ports = ports_of(macro)
    deck = ["* all pins of the leaf cells", f'.include "{macro.view(".sp").name}"', f"xm {' '.join(ports)} {macro.name}",
            ".control", "listing expand", ".endc", ".end"]
    (macro.folder / "deck.cir").write_text("\n".join(deck) + "\n")
    _, text = run(["ngspice", "-b", "deck.cir"], macro.folder, subprocess.DEVNULL)
    node_of = {port: {"gnd": "0"}.get(port, port) for port in ports}
    for path, port, node in re.findall(r"^\s*\d+ : r\.xm\.(\S+)\.r(\w+) (\S+) 0 1k$", text, re.M):
        node_of[f"{path.replace('.', '/')}/{port}"] = node
    return partition(node_of)


# ---------------------------------------------------------------------------------------------------------------------
# The layout's nets, as the program, Magic and KLayout find them from shapes and labels.


def of_program(macro, program):
    text = output([program, "nets", "demo_tech.toml", macro.view(".gds").name, macro.name], macro.folder)
    return partition({name: number for number, _, name in (line.split() for line in text.splitlines())})


MAGIC = """drc off
gds read named.gds
load {top}
extract all
"""


class Groups:
    """Names in groups that are joined."""

    def __init__(self):
        self.above = {}

    def group(self, name):
        while (above := self.above.setdefault(name, name)) != name:
            self.above[name] = self.above[above]
            name = self.above[name]
        return name

    def join(self, one, other):
        self.above[self.group(one)] = self.group(other)


def join_extracted(groups, folder, cell, path):
    """Joins what an extraction of Magic says of a cell and of those below it."""
    for line in (folder / (cell + ".ext")).read_text().splitlines():
        words = line.replace('"', "").split()
        if words[:1] == ["use"]:
            join_extracted(groups, folder, words[1], f"{path}{words[2]}/")
        elif words[:1] in (["merge"], ["equiv"]):
            groups.join(path + words[1], path + words[2])


def of_magic(macro, pins):
    """Magic names instances by property 98, so it is given a copy of the layout that has their names there."""
    (macro.folder / "named.gds").write_bytes(with_property(macro.view(".gds").read_bytes(), 98))
    magic(macro, MAGIC.format(top=macro.name))
    groups = Groups()
    join_extracted(groups, macro.folder, macro.name, "")
    return partition({pin: groups.group(pin) for pin in pins})


def of_klayout(macro):
    text = klayout(macro, "klayout_nets.py", gds=macro.view(".gds").name, top=macro.name, tech=TECH)
    nets = [line.split()[1:] for line in text.splitlines() if line.startswith("net ")]
    return partition({pin: number for number, net in enumerate(nets) for pin in net})


def klayout_says_clean(macro):
    """KLayout extracts a netlist, reads the .sp and compares the two by their form."""
    _, text = run([str(FLOW / "klayout_compare"), TECH, macro.view(".gds").name, macro.view(".sp").name, macro.name], macro.folder)
    demand(text.strip() == "LVS clean", last_line(text))
    return "its netlist of the layout matches the .sp"


def program_says_alike(macro, program):
    """The program's own comparison, by names."""
    status, text = run([program, "compare", TECH, macro.view(".gds").name, macro.view(".sp").name, macro.name], macro.folder)
    demand(status == 0, text.strip())
    return "no difference of the layout from the .sp"
