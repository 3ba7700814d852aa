"""Which modules a tool has to take, as crates/verilog_modules/specs/Legal.antt states it, and changes of a module that make it illegal."""
from collections.abc import Callable
from copy import deepcopy

from verilog_meaning import Meaning

LARGEST = 2 ** 31


def places_of(statement):
    """The targets and the expressions of a statement."""
    if statement[0] == "Assign":
        return [statement[1], statement[2]]
    if statement[0] == "If":
        return [of for _, of in statement[1]] + places_of(statement[2])
    return [place for inner in statement[1] for place in places_of(inner)]


def are_distinct(names):
    return len(names) == len(set(names))


def is_legal_place(module, place):
    kind, name, *rest = place
    signals = module.names("Input", "Output", "Register")
    vectors = [declaration[2] for declaration in module.declarations if declaration[0] != "Memory" and declaration[1] is not None]
    falls = rest[-1] <= rest[-2] if kind in ("PartOf", "ToPart") else True
    if kind in ("Element", "ToWord", "ToPart"):
        return name in module.names("Memory") and rest[0] in signals and falls
    if kind in ("BitOf", "PartOf"):
        return name in vectors and falls
    return name in (module.names("Register") if kind == "ToRegister" else signals)


def has_good_names(module):
    parameters, inputs, outputs = [name for name, _ in module.parameters], module.names("Input"), module.names("Output")
    inner = parameters + inputs + module.names("Register", "Memory")
    outer = parameters + outputs + module.names("Memory")
    ranges = {name: width for kind, width, name, *_ in module.declarations if kind == "Register"}
    alike = all(ranges.get(name, width) == width for kind, width, name, *_ in module.declarations if kind == "Output")
    return (are_distinct(module.ports) and are_distinct(inputs + outputs) and set(module.ports) == set(inputs + outputs)
            and are_distinct(inner) and are_distinct(outer) and alike)


def has_good_sizes(module):
    known = []
    for name, (kind, amount) in module.parameters:
        if kind == "PowerOf" and amount not in known:
            return False
        known.append(name)
    sizes = [size for _, width, _, *depth in module.declarations for size in [width, *depth] if size is not None]
    return set(sizes) <= set(known) and all(1 <= Meaning(module).values[name] < LARGEST for name in known)


def has_good_blocks(module):
    settings = [setting for settings in module.initial for setting in settings]
    good = all(memory in module.names("Memory") and size >= 1 and digits and int(digits, 16) < 1 << size for memory, _, size, digits in settings)
    places = [place for _, _, body in module.always for place in places_of(body)]
    clocks = [("Whole", clock) for _, clock, _ in module.always]
    return good and all(is_legal_place(module, place) for place in places + clocks)


def is_legal(module):
    return has_good_names(module) and has_good_sizes(module) and has_good_blocks(module)


# Changes that make each module illegal


def name_twice(module):
    module.declarations.append(("Register", None, module.names("Memory")[0]))


def port_undeclared(module):
    module.ports.append("no_port")


def input_unlisted(module):
    module.ports.remove(module.names("Input")[0])


def width_unknown(module):
    module.declarations.append(("Register", "no_size", "no_name"))


def power_of_later(module):
    module.parameters.insert(0, ("no_power", ("PowerOf", module.parameters[0][0])))


def added(module, statement):
    edge, clock, body = module.always[0]
    module.always[0] = (edge, clock, ("Block", [body, statement]))


def register_of(module):
    return module.names("Register")[0]


def input_assigned(module):
    added(module, ("Assign", ("ToRegister", module.names("Input")[0]), ("Whole", register_of(module))))


def memory_read_whole(module):
    added(module, ("Assign", ("ToRegister", register_of(module)), ("Whole", module.names("Memory")[0])))


def name_undeclared(module):
    added(module, ("Assign", ("ToRegister", register_of(module)), ("Whole", "no_name")))


def part_rises(module):
    module.declarations.append(("Register", module.parameters[0][0], "no_part"))
    added(module, ("Assign", ("ToRegister", register_of(module)), ("PartOf", "no_part", 0, 1)))


def bit_of_scalar(module):
    module.declarations.append(("Register", None, "no_bits"))
    added(module, ("Assign", ("ToRegister", register_of(module)), ("BitOf", "no_bits", 0)))


def register_as_memory(module):
    added(module, ("Assign", ("ToWord", register_of(module) + "_no", register_of(module)), ("Whole", register_of(module))))


REFUSED = [name_twice, port_undeclared, width_unknown, input_assigned, memory_read_whole, name_undeclared, part_rises, bit_of_scalar,
           register_as_memory]
# Icarus Verilog takes these, which the standard doesn't allow.
TAKEN = [input_unlisted, power_of_later]


def illegal(module, change: Callable):
    module = deepcopy(module)
    change(module)
    return module
