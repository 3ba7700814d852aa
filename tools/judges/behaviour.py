"""The Verilog view as simulators run it, beside a list of words in Python, and as yosys takes it: a box with ports."""
import json
import random
import re

from programs import demand, output, run

COMMANDS = 3000

BENCH = """`timescale 1ns/1ps
module bench;
  reg clk0, csb0, web0, csb, web, check;
  reg [{masks}-1:0] wmask0, mask;
  reg [{addr0}-1:0] addr0, address;
  reg [{din0}-1:0] din0, data, wanted;
  wire [{din0}-1:0] dout0;
  integer file, commands, reads, wrong;
  {name} memory(.clk0(clk0), .csb0(csb0), .web0(web0), {wmask0}.addr0(addr0), .din0(din0), .dout0(dout0));
  initial begin
    clk0 = 0; commands = 0; reads = 0; wrong = 0;
    file = $fopen("commands.txt", "r");
    while ($fscanf(file, "%b %b %b %b %b %b %b\\n", csb, web, mask, address, data, check, wanted) == 7) begin
      // Assigned here, since Verilator 5.006 doesn't see that $fscanf has changed an input.
      csb0 = csb; web0 = web; wmask0 = mask; addr0 = address; din0 = data;
      #5 clk0 = 1;
      #5 clk0 = 0;
      #5 commands = commands + 1;
      if (check) begin
        reads = reads + 1;
        if (dout0 !== wanted) wrong = wrong + 1;
      end
    end
    $display("commands %0d reads %0d wrong %0d", commands, reads, wrong);
    $finish;
  end
endmodule
"""

USER = """module user(
    input clk, input csb, input web, {mask_port}input [{addr0}-1:0] address, input [{din0}-1:0] write, output [{din0}-1:0] read
  );
  {name} memory(.clk0(clk), .csb0(csb), .web0(web), {wmask0}.addr0(address), .din0(write), .dout0(read));
endmodule
"""


def numbers(macro, mask_wire):
    bits = macro.bits()
    masks = bits.get("wmask0", 0)
    return {"name": macro.name, "addr0": bits["addr0"], "din0": bits["din0"], "masks": max(masks, 1),
            "wmask0": f".wmask0({mask_wire}), " if masks else "", "mask_port": f"input [{masks}-1:0] masks, " if masks else ""}


def commands_of(macro):
    """Each word is written once, and then come 3,000 random commands.

    A line is csb0 web0 wmask0 addr0 din0, whether this is a read, and the word that is then at the address.
    """
    bits, words = macro.bits(), macro.config["num_words"]
    masks = bits.get("wmask0", 1)
    size = bits["din0"] // masks
    dice, memory = random.Random(words + bits["din0"]), [0] * words
    for number in range(words + COMMANDS):
        first = number < words
        csb, web = (0, 0) if first else (int(dice.random() < 0.1), dice.randrange(2))
        mask = (1 << masks) - 1 if first or masks == 1 else dice.randrange(1 << masks)
        address = number if first else dice.randrange(words)
        data = dice.randrange(1 << bits["din0"])
        if (csb, web) == (0, 0):
            kept = sum(((1 << size) - 1) << size * m for m in range(masks) if not mask >> m & 1)
            memory[address] = memory[address] & kept | data & ~kept
        wide = bits["din0"]
        is_read = int((csb, web) == (0, 1))
        yield f"{csb} {web} {mask:0{masks}b} {address:0{bits['addr0']}b} {data:0{wide}b} {is_read} {memory[address]:0{wide}b}"


def prepare(macro):
    lines = list(commands_of(macro))
    (macro.folder / "commands.txt").write_text("\n".join(lines) + "\n")
    (macro.folder / "bench.v").write_text(BENCH.format(**numbers(macro, "wmask0")))
    return len(lines)


def judge(text, wanted):
    told = re.search(r"commands (\d+) reads (\d+) wrong (\d+)", text)
    demand(told, "the bench printed nothing")
    commands, reads, wrong = map(int, told.groups())
    demand(commands == wanted and reads > 0, f"{commands} commands of {wanted}, {reads} reads")
    demand(wrong == 0, f"{wrong} of {reads} reads are wrong")
    return f"{commands} commands, {reads} reads, none wrong"


def of_iverilog(macro):
    wanted = prepare(macro)
    output(["iverilog", "-g2005", "-o", "bench.vvp", "bench.v", macro.view(".v").name], macro.folder)
    return judge(output(["vvp", "bench.vvp"], macro.folder), wanted)


def of_verilator(macro):
    wanted, view = prepare(macro), macro.view(".v").name
    status, text = run(["verilator", "--lint-only", "-Wall", view], macro.folder)
    demand(status == 0 and not text.strip(), f"a warning: {text.strip()[:100]}")
    output(["verilator", "--binary", "--timing", "-Wno-fatal", "-j", "2", "--top-module", "bench", "bench.v", view], macro.folder)
    return judge(output([str(macro.folder / "obj_dir/Vbench")], macro.folder), wanted)


def of_yosys(macro):
    """Reads the view for its ports alone, and synthesizes a module that uses it: the memory stays one cell."""
    (macro.folder / "user.v").write_text(USER.format(**numbers(macro, "masks")))
    view = macro.view(".v").name
    lines = [f"read_verilog -lib {view}", "read_verilog user.v", "synth -top user", "check -assert", "write_json user.json"]
    output(["yosys", "-q", "-p", "; ".join(lines)], macro.folder)
    modules = json.loads((macro.folder / "user.json").read_text())["modules"]
    cells = [cell["type"] for cell in modules["user"]["cells"].values()]
    demand(cells == [macro.name], f"cells {cells}")
    ports = {name: len(port["bits"]) for name, port in modules[macro.name]["ports"].items()}
    wanted = {"clk0": 1, "csb0": 1, "web0": 1, **macro.bits()}
    demand(ports == wanted, f"ports {ports}, wanted {wanted}")
    return f"one cell of {len(ports)} ports, {sum(ports.values())} bits"
