"""The subcircuits of a netlist, for scripts of this folder and of those in it."""


def spice_lines(text):
    """The lines of a SPICE text as their words, continued ones joined, without comments and empty lines."""
    plain = "\n".join(line for line in text.splitlines() if not line.startswith("*"))
    return [line.split() for line in plain.replace("\n+", " ").splitlines() if line.strip()]


def spice_cells(text):
    """Of each subcircuit of a SPICE text its ports, and its instances in order as (name, subcircuit, nets by port); all in lower case."""
    cells, cell = {}, None
    for first, *words in spice_lines(text.lower()):
        if first == ".subckt":
            cell = words[0]
            cells[cell] = (words[1:], [])
        elif first == ".ends":
            cell = None
        elif first.startswith("x") and cell:
            ports = cells[words[-1]][0]
            if len(ports) != len(words) - 1:
                raise ValueError(f"{first} of {cell} has {len(words) - 1} nodes, and {words[-1]} has {len(ports)} ports")
            cells[cell][1].append((first, words[-1], dict(zip(ports, words[:-1]))))
    return cells
