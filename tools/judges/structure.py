"""The netlist as Verilog over switch-level leaf cells, so that a simulator runs the .sp itself on the commands of the bench."""
import behaviour
from netlist_modules import LEAVES, netlist_modules
from programs import output


def of_iverilog(macro):
    wanted = behaviour.prepare(macro)
    (macro.folder / "structure.v").write_text(netlist_modules(macro.view(".sp").read_text(), macro.roles(), macro.name))
    output(["iverilog", "-g2005", "-o", "structure.vvp", "bench.v", "structure.v", str(LEAVES)], macro.folder)
    return behaviour.judge(output(["vvp", "structure.vvp"], macro.folder), wanted)
