"""A technology of Magic with the layers and rules of a technology file.

magic_tech.py TECH > NAME.tech, and then magic -dnull -noconsole -T NAME

A nanometre is one unit of Magic. Each metal has a plane, in which it lies with the cuts that end on it: a cut is one of Magic's contacts,
so there is metal above and below it whether it is drawn or not. Rules have their number as their reason.
"""
import sys
import tomllib

HEAD = """tech
 format 32
 {name}
end
version
 version 1
 description "layers and rules of {name}"
end"""


def section(name, lines):
    return "\n".join([name, *(" " + line for line in lines), "end"])


class Stack:
    """The metals and cuts of a technology, and Magic's types on each metal's plane."""

    def __init__(self, technology):
        self.metals, self.cuts = technology["wire"]["metals"], technology["wire"]["cuts"]
        self.others = [layer["name"] for layer in technology["layer"] if layer["name"] not in self.metals + self.cuts]

    def neighbours(self, cut):
        at = self.cuts.index(cut)
        return self.metals[at : at + 2]

    def on_plane(self, metal):
        """The metal's type and those of the cuts that end on it."""
        return ",".join([metal, *(cut for cut in self.cuts if metal in self.neighbours(cut))])

    def whole(self, layer):
        return self.on_plane(layer) if layer in self.metals else layer

    def plane(self, layer):
        return "plane_" + (self.neighbours(layer)[0] if layer in self.cuts else layer)


def rule_lines(stack, number, rule):
    layer, least = rule["layer"], rule["min"]
    if rule["kind"] == "width":
        return [f'width {stack.whole(layer)} {least} "{number}"']
    if rule["kind"] == "space" and rule["other"] == layer:
        return [f'spacing {stack.whole(layer)} {stack.whole(layer)} {least} touching_ok "{number}"']
    if rule["kind"] == "enclose" and len(rule["by"]) == 1 and rule["by"][0] in stack.neighbours(layer):
        metal = rule["by"][0]
        return [f'surround {layer}/{stack.plane(metal)} {stack.on_plane(metal)} {least} absence_illegal "{number}"']
    raise SystemExit(f"rule {number} isn't one that is written for Magic: {rule}")


def layer_lines(stack, technology):
    for layer in technology["layer"]:
        name = layer["name"]
        yield f"layer {name} {name}"
        if name in stack.metals:
            yield f"labels {name}"
    for layer in technology["layer"]:
        yield "calma {} {} {}".format(layer["name"], *layer["gds"])


def magic_tech(technology, name):
    stack = Stack(technology)
    metals, cuts = stack.metals, stack.cuts
    layers = [*stack.others, *metals, *cuts]
    blocked = [f"{stack.plane(metal)} blocked_{metal}" for metal in metals]
    scale = ["style " + name, "scalefactor 1 nanometers"]
    planes = [f"planeorder {stack.plane(layer)} {number}" for number, layer in enumerate(stack.others + metals)]
    rules = [line for number, rule in enumerate(technology["rule"]) for line in rule_lines(stack, number, rule)]
    return "\n".join([
        HEAD.format(name=name),
        section("planes", [stack.plane(layer) for layer in stack.others + metals]),
        section("types", [f"{stack.plane(layer)} {layer}" for layer in layers] + blocked),
        section("contact", [f"{cut} {' '.join(stack.neighbours(cut))}" for cut in cuts] + ["stackable"]),
        section("styles", ["styletype mos", *(f"{layer} {number + 1}" for number, layer in enumerate(layers))]),
        section("compose", []),
        section("connect", [f"{stack.on_plane(metal)} {stack.on_plane(metal)}" for metal in metals]),
        section("cifoutput", scale),
        section("cifinput", [*scale, *layer_lines(stack, technology)]),
        section("drc", rules),
        section("extract", ["style " + name, "lambda 0.1", "step 100", "sidehalo 0", *planes]),
        section("lef", [f"routing {metal} {metal}" for metal in metals] + [f"cut {cut} {cut}" for cut in cuts]
                + [f"obstruction blocked_{metal} {metal}" for metal in metals]),
    ]) + "\n"


if __name__ == "__main__":
    if len(sys.argv) != 2:
        sys.exit("magic_tech.py TECH > NAME.tech")
    with open(sys.argv[1], "rb") as file:
        print(magic_tech(tomllib.load(file), "technology"), end="")
