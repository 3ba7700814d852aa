"""A folder in which a build is disturbed, and what the build may leave there. For the tools of this folder."""
import subprocess
import sys
from pathlib import Path

INPUTS = ["demo.toml", "demo_tech.toml", "demo_tech.gds", "demo_tech.sp"]
VIEWS = ["demo.sp", "demo.gds", "demo.lef", "demo.v"]
WORDS = ["build", "demo.toml", "1"]
OLD = b"what was there before\n"


def refuse_words(fits, words, usage):
    """Ends with a line where the words of a call don't fit: how many they are, the program, or the numbers behind it."""
    if not fits or not all(word.isdecimal() and int(word) > 0 for word in words[1:]):
        sys.exit(f"usage: {usage}")
    if not Path(words[0]).is_file():
        sys.exit(f"{usage.split()[0]}: there is no program {words[0]}")


def demonstration(program, folder):
    """The bytes of the eight files of demonstration 0, by their names."""
    subprocess.run([program, "demo", "0", "1"], cwd=folder, check=True, stdout=subprocess.DEVNULL)
    return {name: Path(folder, name).read_bytes() for name in INPUTS + VIEWS}


def prepare(folder, files, old):
    """Puts the inputs into the folder, and old views too or none."""
    for name in INPUTS:
        Path(folder, name).write_bytes(files[name])
    for name in VIEWS:
        view = Path(folder, name)
        view.unlink(missing_ok=True)
        Path(folder, f"{name}.unfinished").unlink(missing_ok=True)
        if old:
            view.write_bytes(OLD)


def state(folder, name, whole, old):
    """Of a view: whole, before (untouched), or wrong: a view is replaced whole or not at all."""
    view = Path(folder, name)
    if not view.exists():
        return "wrong" if old else "before"
    found = view.read_bytes()
    if found == whole:
        return "whole"
    return "before" if old and found == OLD else "wrong"


def left(folder, files, old):
    """How many views are new, and whether the beginning of the next lies beside it; None where the folder is in no state that a build may leave."""
    states = [state(folder, name, files[name], old) for name in VIEWS]
    whole = 0
    while whole < len(states) and states[whole] == "whole":
        whole += 1
    untouched = all(s == "before" for s in states[whole:])
    inputs = all(Path(folder, name).read_bytes() == files[name] for name in INPUTS)
    more = {path.name for path in Path(folder).iterdir()} - set(INPUTS + VIEWS)
    beside = {f"{name}.unfinished" for name in VIEWS[whole : whole + 1]}
    return (whole, bool(more)) if untouched and inputs and more <= beside else None
