"""Runs ngspice on a deck and reads what it measured."""
import subprocess
import tempfile
from pathlib import Path

SUPPLY = 3.3  # V
MODELS = Path(__file__).resolve().parent / "level1.sp"
RISE = 0.2  # ns


def levels(*steps):
    """A source's value: steps of a time in ns and a level from 0 to 1."""
    points, last = [(0, steps[0][1])], steps[0][1]
    for time, level in steps[1:]:
        points += [(time, last), (time + RISE, level)]
        last = level
    return "PWL(" + " ".join(f"{time:g}n {SUPPLY * level:g}" for time, level in points) + ")"


def run(deck, probes):
    """Runs the deck and gives the numbers that its `meas` commands print under these names."""
    with tempfile.TemporaryDirectory() as folder:
        path = Path(folder, "deck.cir")
        path.write_text("\n".join(deck) + "\n")
        done = subprocess.run(["ngspice", "-b", path], capture_output=True, text=True)
    found = {}
    for line in done.stdout.splitlines():
        words = line.split()
        if len(words) >= 3 and words[1] == "=" and words[0] in probes:
            found[words[0]] = float(words[2])
    if len(found) != len(probes):
        print(done.stdout[-2000:], done.stderr[-2000:])
        raise SystemExit(f"ngspice answered {len(found)} of {len(probes)} measurements")
    return found


def voltages(kit, lines, length, probes, step=0.05):
    """Adds supply, models and the kit's cells to a circuit, runs it for a length in ns, and gives its voltages at probes,
    which are a node and a time in ns by name."""
    deck = ["* written by a script of the kit", f".include {MODELS}", f".include {kit}", f"Vvdd vdd 0 {SUPPLY}", *lines]
    deck += [".model switch sw(vt=1.5 ron=10 roff=1e15)", ".options rshunt=1e12", f".tran {step}n {length}n", ".control", "run"]
    deck += [f"meas tran {name} find v({node}) at={time}n" for name, (node, time) in probes.items()]
    return run(deck + ["quit", ".endc", ".end"], probes)
