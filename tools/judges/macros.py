"""Memories that the program builds to be tried by other tools, and copies of their views with a fault."""
import shutil
import struct
import tomllib
from dataclasses import dataclass
from pathlib import Path

from gdsii import BGNSTR, BOUNDARY, ENDEL, PROPATTR, XY, record, records
from programs import Differs, last_line, run

# Beside the demonstration of 16 words of 2 bits: masks, and banks with masks and a column choice.
CONFIGURATIONS = {
    "masked": {"word_size": 6, "num_words": 32, "write_size": 2},
    "banked": {"word_size": 4, "num_words": 128, "write_size": 2, "num_banks": 2, "words_per_row": 2},
}


@dataclass
class Macro:
    """A memory's folder, its name, its configuration, and the technology that it was built with."""

    folder: Path
    name: str
    config: dict
    technology: dict

    def view(self, ending):
        return self.folder / (self.name + ending)

    def layers(self):
        """The pair of GDSII numbers of each layer."""
        return {layer["name"]: tuple(layer["gds"]) for layer in self.technology["layer"]}

    def roles(self):
        """The role of each leaf cell."""
        return {cell.lower(): role for role, cell in self.technology["role"].items()}

    def bits(self):
        """How many bits each bus has: what the ports of the macro must be."""
        word, write = self.config["word_size"], self.config.get("write_size", self.config["word_size"])
        buses = {"wmask0": word // write} if write < word else {}
        return {**buses, "addr0": self.config["num_words"].bit_length() - 1, "din0": word, "dout0": word}

    def copy(self, folder):
        """A copy of the folder, to put a fault into one of its views."""
        shutil.copytree(self.folder, folder)
        return Macro(folder, self.name, self.config, self.technology)


def read_macro(folder, name, config):
    return Macro(folder, name, config, tomllib.loads((folder / "demo_tech.toml").read_text()))


def technology_text(technology):
    """A technology file with these layers and rules."""
    lines = ['outline = "{}"'.format(technology["outline"])]
    for layer in technology["layer"]:
        lines += ["[[layer]]", 'name = "{name}"\ngds = {gds}'.format(**layer)]
    for rule in technology["rule"]:
        lines += ["[[rule]]", 'kind = "{kind}"\nlayer = "{layer}"\nmin = {min}'.format(**rule)]
        lines += [f'other = "{rule["other"]}"'] if "other" in rule else []
        lines += ["by = [{}]".format(", ".join(f'"{name}"' for name in rule["by"]))] if "by" in rule else []
    return "\n".join(lines) + "\n"


def answer(program, words, folder):
    try:
        status, text = run([program, *words], folder)
    except Differs as differs:
        raise SystemExit(f"{differs}") from None
    if status != 0:
        raise SystemExit(f"{program} {' '.join(words)} ended with {status}: {last_line(text)}")
    return text.strip()


def build_demo(program, folder):
    folder.mkdir(parents=True)
    line = answer(program, ["demo", "0", "1"], folder)
    return read_macro(folder, "demo", tomllib.loads((folder / "demo.toml").read_text())), line


def build_config(program, folder, kit, name, config, spice=None):
    """Builds a configuration over a kit; `spice` is the text of the kit's subcircuits, where it isn't the kit's own."""
    folder.mkdir(parents=True)
    for ending in (".toml", ".gds", ".sp"):
        shutil.copy(kit / ("demo_tech" + ending), folder)
    if spice is not None:
        (folder / "demo_tech.sp").write_text(spice)
    keys = {**config, "tech_name": "demo_tech", "output_name": name}
    lines = [f'{key} = "{value}"' if isinstance(value, str) else f"{key} = {value}" for key, value in keys.items()]
    (folder / "config.toml").write_text("\n".join(lines) + "\n")
    line = answer(program, ["build", "config.toml", "1"], folder)
    return read_macro(folder, name, config), line


# ---------------------------------------------------------------------------------------------------------------------
# GDSII by records.

NARROW = ((-5001, 0), (-5001, 1000), (-5000, 1000), (-5000, 0), (-5001, 0))


def first_wire(found):
    """Where the first wire of the last structure, which is the macro, begins and ends among the records."""
    last = max(at for at, it in enumerate(found) if it.code == BGNSTR)
    begin = next((at for at in range(last, len(found)) if found[at].code == BOUNDARY), None)
    if begin is None:
        raise Differs("the last structure has no boundary")
    return begin, next(at for at in range(begin, len(found)) if found[at].code == ENDEL)


def without_shape(data):
    """The layout without the macro's first wire."""
    found = list(records(data))
    begin, end = first_wire(found)
    return b"".join(it.spelled() for it in found[:begin] + found[end + 1 :])


def narrow_shape(data):
    """The layout with a box a nanometre wide, left of all that is drawn, in place of the macro's first wire."""
    found = list(records(data))
    begin, end = first_wire(found)
    box = record(XY, struct.pack(">10i", *(number for point in NARROW for number in point)))
    return b"".join(box if it.code == XY and begin < at < end else it.spelled() for at, it in enumerate(found))


def with_property(data, number):
    """The layout with this number in place of property 1, in which instances have their names."""
    named = struct.pack(">H", number)
    return b"".join(record(PROPATTR, named) if it.code == PROPATTR and it.numbers() == (1,) else it.spelled() for it in records(data))


# ---------------------------------------------------------------------------------------------------------------------
# A fault in each view. Each answers the changed text, which isn't the old one.


def exchanged_lines(text):
    """In the netlist the first write cell with bl and br exchanged."""
    lines = text.split("\n")
    at = next(i for i, line in enumerate(lines) if line.startswith("xw0 "))
    words = lines[at].split()
    words[2], words[3] = words[3], words[2]
    return "\n".join([*lines[:at], " ".join(words), *lines[at + 1 :]])


def exchanged_rows(text):
    """In the netlist the first two rows of the array, each with the predecode line of the other."""
    lines = text.split("\n")
    one, other = (next(i for i, line in enumerate(lines) if line.startswith(name)) for name in ("xr0 ", "xr1 "))
    words, more = lines[one].split(), lines[other].split()
    words[1], more[1] = more[1], words[1]
    lines[one], lines[other] = " ".join(words), " ".join(more)
    return "\n".join(lines)


def moved_pin(text):
    """In the abstract view the first pin's box ends a nanometre higher."""
    lines = text.split("\n")
    at = next(i for i, line in enumerate(lines) if line.strip().startswith("RECT"))
    words = lines[at].split()
    words[4] = f"{float(words[4]) + 0.001:.3f}"
    return "\n".join([*lines[:at], " ".join(words), *lines[at + 1 :]])


def next_word(text):
    """In the Verilog a read answers the word of the next address."""
    return text.replace("dout0 <= mem[addr0_reg];", "dout0 <= mem[addr0_reg + 1'b1];")


def renamed_port(text):
    """In the Verilog din0 has another name."""
    return text.replace("din0", "data0")
