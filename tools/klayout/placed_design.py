"""A placed or routed DEF with the layouts of its macros, as one layout whose numbers are those of a technology."""
import tempfile
import tomllib

import pya


def technology(path):
    with open(path, "rb") as file:
        return tomllib.load(file)


def numbers_of(rules):
    return {layer["name"]: layer["gds"] for layer in rules["layer"]}


def layer_map(rules):
    """Each layer of the technology's wires with its GDSII numbers, as KLayout reads them."""
    numbers = numbers_of(rules)
    names = rules["wire"]["metals"] + rules["wire"]["cuts"]
    return "".join(f"{name} NET,SPNET,PIN,VIA {numbers[name][0]} {numbers[name][1]}\n" for name in names)


def read_layout(path):
    read = pya.Layout()
    read.read(path)
    return read


def placed_design(rules, lef, layouts, design):
    """The design, over the macros of these layouts. Instances get their names of the DEF as property 1, with an x before them."""
    macros = [read_layout(path) for path in layouts]
    options = pya.LoadLayoutOptions()
    config = options.lefdef_config
    config.dbu = 0.001
    config.lef_files = lef
    config.read_lef_with_def = False
    config.macro_layouts = macros
    config.macro_resolution_mode = 2  # macros are always those of the layouts
    made = pya.Layout()
    with tempfile.NamedTemporaryFile("w", suffix=".map") as file:
        file.write(layer_map(rules))
        file.flush()
        config.map_file = file.name
        made.read(design, options)
    for instance in made.top_cell().each_inst():
        name = instance.property(1)
        if name is not None:
            instance.set_property(1, f"x{name}")
    return made
