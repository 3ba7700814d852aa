"""A memory's netlist as Verilog over switch-level leaf cells, for tools/flow/netlist_verilog and tools/judges.

Each subcircuit becomes a module of the same instances and nets; the leaf cells become the modules of tools/flow/leaves.v by their roles, whose
ports stand in the same order.
"""
import re
from pathlib import Path

from spice_cells import spice_cells

LEAVES = Path(__file__).resolve().parents[1] / "flow/leaves.v"


def escaped(word):
    """Any word as a Verilog name. The blank behind it belongs to it."""
    return f"\\{word} "


def module(name, ports, instances, roles):
    yield f"module {escaped(name)}({', '.join('inout ' + escaped(port) for port in ports)});"
    nets = dict.fromkeys(net for _, _, inner in instances for net in inner.values() if net not in ports)
    yield from (f"  wire {escaped(net)};" for net in nets)
    for instance, cell, inner in instances:
        yield f"  {roles.get(cell, escaped(cell))} {escaped(instance)}({', '.join(map(escaped, inner.values()))});"
    yield "endmodule"


def outside(top, inner, ports):
    """The module with buses and without supplies, as the view has it."""
    buses = {}
    for port in ports:
        bit = re.fullmatch(r"(\w+)\[(\d+)\]", port)
        signal = bit[1] if bit else port
        if signal not in ("vdd", "gnd"):
            buses[signal] = max(buses.get(signal, ""), f"[{int(bit[2])}:0] " if bit else "", key=lambda it: (len(it), it))
    yield f"module {top}(" + ", ".join(f"{'output' if signal == 'dout0' else 'input'} {bits}{signal}" for signal, bits in buses.items()) + ");"
    yield "  supply1 vdd;"
    yield "  supply0 gnd;"
    yield f"  {escaped(inner)} netlist({', '.join(ports)});"
    yield "endmodule"


def netlist_modules(text, roles, top):
    """The Verilog of a SPICE text, by the role of each leaf cell; the module `top` has the ports of the view. KeyError names a subcircuit that isn't there."""
    cells, inner = spice_cells(text), f"{top}_netlist"
    lines = ["`timescale 1ns/1ps"]
    for cell, (ports, instances) in cells.items():
        if cell not in roles:
            lines += module(inner if cell == top.lower() else cell, ports, instances, roles)
    lines += outside(top, inner, cells[top.lower()][0])
    return "\n".join(lines) + "\n"
