"""Small GDSII and technology files for the scripts of this folder."""
import os
import resource
import struct
import subprocess
import time

UNITS = bytes.fromhex("3E4189374BC6A7F03944B82FA09B5A54")


def record(code, kind, data=b""):
    return struct.pack(">HBB", len(data) + 4, code, kind) + data


def text(name):
    return name + b"\0" * (len(name) % 2)


def xy(*points):
    return record(16, 3, b"".join(struct.pack(">2i", x, y) for x, y in points))


def boundary(layer, points):
    return (record(8, 0) + record(13, 2, struct.pack(">h", layer)) + record(14, 2, bytes(2))
            + xy(*points, points[0]) + record(17, 0))


def rectangle(layer, x1, y1, x2, y2):
    return boundary(layer, [(x1, y1), (x2, y1), (x2, y2), (x1, y2)])


def label(layer, x, y, name):
    return (record(12, 0) + record(13, 2, struct.pack(">h", layer)) + record(22, 2, bytes(2)) + xy((x, y))
            + record(25, 6, text(name)) + record(17, 0))


def reference(name, x, y):
    return record(10, 0) + record(18, 6, text(name)) + xy((x, y)) + record(17, 0)


def array(name, columns, rows, across, down):
    return (record(11, 0) + record(18, 6, text(name)) + record(19, 2, struct.pack(">2h", columns, rows))
            + xy((0, 0), (columns * across, 0), (0, rows * down)) + record(17, 0))


def structure(name, *elements):
    return record(5, 2, bytes(24)) + record(6, 6, text(name)) + b"".join(elements) + record(7, 0)


def library(*structures):
    return (record(0, 2, struct.pack(">h", 600)) + record(1, 2, bytes(24)) + record(2, 6, b"a\0") + record(3, 5, UNITS)
            + b"".join(structures) + record(4, 0))


def technology(layers, rules=(), connects=()):
    """Layers as (name, number); rules as (kind, layer, other or by, minimum)."""
    lines = ['outline = "%s"' % layers[0][0]]
    for name, number in layers:
        lines += ["[[layer]]", f'name = "{name}"', f"gds = [{number}, 0]"]
    for kind, layer, other, least in rules:
        lines += ["[[rule]]", f'kind = "{kind}"', f'layer = "{layer}"', f"min = {least}"]
        if kind == "space":
            lines.append(f'other = "{other}"')
        if kind == "enclose":
            lines.append("by = [" + ", ".join(f'"{name}"' for name in other) + "]")
    for cut, to in connects:
        lines += ["[[connect]]", f'cut = "{cut}"', "to = [" + ", ".join(f'"{name}"' for name in to) + "]"]
    return "\n".join(lines) + "\n"


def write(name, data):
    with open(name, "wb" if isinstance(data, bytes) else "w") as file:
        file.write(data)


def measured(words, limit=120, stack=None):
    """Status, seconds of processor time (user and system), wall seconds, MiB at most, and lines printed; of a run that is ended after `limit`
    seconds of processor time, and may have so many KiB of stack."""
    read, sent = os.pipe()
    start = time.time()
    pid = os.fork()
    if pid == 0:
        os.close(read)
        resource.setrlimit(resource.RLIMIT_CPU, (limit, limit))
        if stack:
            resource.setrlimit(resource.RLIMIT_STACK, (stack << 10, stack << 10))
        os.dup2(sent, 1)
        os.execvp(words[0], words)
    os.close(sent)
    lines = 0
    with os.fdopen(read, "rb") as pipe:
        while chunk := pipe.read(1 << 20):
            lines += chunk.count(b"\n")
    _, status, used = os.wait4(pid, 0)
    return os.waitstatus_to_exitcode(status), used.ru_utime + used.ru_stime, time.time() - start, used.ru_maxrss / 1024, lines
