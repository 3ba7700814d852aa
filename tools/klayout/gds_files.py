"""Reading and writing layouts in KLayout, for the scripts of this folder."""
import sys

import pya


def stop(script, why):
    # KLayout takes a number alone as its status.
    print(f"{script}: {why}", file=sys.stderr)
    sys.exit(1)


def read(script, source):
    layout = pya.Layout()
    fault = None
    try:
        layout.read(source)
    except RuntimeError as error:
        fault = error
    if fault is not None:  # KLayout loses a status that is given while an exception is handled
        stop(script, f"KLayout can't read {source}: {fault}")
    return layout


def options():
    """How GDSII is written: the same bytes each time, and nothing of KLayout's own."""
    made = pya.SaveLayoutOptions()
    made.format = "GDS2"
    made.gds2_write_timestamps = False
    made.write_context_info = False
    return made
