"""Calls of KLayout, Magic and the program on the views of a macro."""
from pathlib import Path

from macros import technology_text
from magic_tech import magic_tech
from programs import demand, output, run

HERE = Path(__file__).resolve().parent

# What Magic does before it looks at a layout: reads it, and checks it by the technology's rules.
MAGIC_CHECKS = """drc off
gds read {gds}
load {top}
select top cell
drc on
drc check
drc catchup
"""


def klayout(macro, script, **variables):
    """What a script of KLayout's prints, which is named from this folder, where these variables are set."""
    words = [word for name, value in variables.items() for word in ("-rd", f"{name}={value}")]
    return output(["klayout", "-b", "-r", str(HERE / script), *words], macro.folder)


def magic(macro, script, technology=None):
    """What Magic prints of a script, by another technology than the macro's where it is given."""
    (macro.folder / "rules.tech").write_text(magic_tech(technology or macro.technology, "rules"))
    (macro.folder / "script.tcl").write_text(script + "quit -noprompt\n")
    return output(["magic", "-dnull", "-noconsole", "-T", "rules", "script.tcl"], macro.folder)


def magic_checks(macro):
    return MAGIC_CHECKS.format(gds=macro.view(".gds").name, top=macro.name)


def program_checks(macro, program, technology):
    """The lines that `check` prints by this technology, each as its words."""
    (macro.folder / "rules.toml").write_text(technology_text(technology))
    status, text = run([program, "check", "rules.toml", macro.view(".gds").name, macro.name, "1"], macro.folder)
    demand(status in (0, 1), f"check ended with {status}: {text[:80]}")
    return [line.split() for line in text.splitlines()]
