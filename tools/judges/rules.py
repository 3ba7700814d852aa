"""Which rules the layout breaks, and which where each is a nanometre stricter, by the program, KLayout and Magic.

A built layout breaks no rule. A stricter rule is broken in most layouts, since wires are drawn as near and as narrow as they may be. So the tools
are seen to look at each rule, and to agree on whether it is broken; how often they say so isn't compared.
"""
import copy
import re

from layout_tools import klayout, magic, magic_checks, program_checks
from macros import technology_text
from programs import demand, same_sets

MAGIC = 'foreach {reason boxes} [drc listall why] { puts "broken $reason" }\n'


def stricter(technology):
    rules = copy.deepcopy(technology)
    for rule in rules["rule"]:
        rule["min"] += 1
    return rules


def of_program(macro, program):
    return {int(number) for number, *_ in program_checks(macro, program, stricter(macro.technology))}


def of_klayout(macro, technology):
    (macro.folder / "klayout.toml").write_text(technology_text(technology))
    text = klayout(macro, "klayout_check.py", tech="klayout.toml", gds=macro.view(".gds").name, top=macro.name)
    return set(map(int, re.findall(r"rule (\d+): \d+", text)))


def of_magic(macro, technology):
    text = magic(macro, magic_checks(macro) + MAGIC, technology)
    return set(map(int, re.findall(r"^broken (\d+)$", text, re.M)))


def compare(macro, of_tool, wanted):
    """`of_tool` answers which rules of a technology a macro breaks; `wanted` are the stricter ones that the program finds broken."""
    demand(wanted, "no stricter rule is broken, so nothing was compared")
    same_sets("broken rules", of_tool(macro, macro.technology), set())
    same_sets("broken stricter rules", of_tool(macro, stricter(macro.technology)), wanted)
    return f"no rule broken; each 1 nm stricter: {len(wanted)} of {len(macro.technology['rule'])} broken, the same as by ours"
