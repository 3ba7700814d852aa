"""Calls of other programs: whether they are there, and what they print."""
import contextlib
import os
import shutil
import signal
import subprocess

SECONDS = 600


class NotInstalled(Exception):
    """A program isn't there."""


class Differs(Exception):
    """A tool has read something else than the view holds, or refused it."""


def program_path(name):
    path = shutil.which(name)
    if path is None:
        raise NotInstalled(name)
    return path


def python_with(module):
    """The first Python on PATH that has this module, since Debian's modules are those of its own Python."""
    for folder in os.get_exec_path():
        path = os.path.join(folder, "python3")
        if os.access(path, os.X_OK) and subprocess.run([path, "-c", f"import {module}"], capture_output=True).returncode == 0:
            return path
    raise NotInstalled(module)


def run(words, folder, errors=subprocess.STDOUT):
    """Status, and all that was printed. The program reads nothing, has no window, and is ended after ten minutes with all that it started."""
    process = subprocess.Popen(
        [program_path(words[0]), *words[1:]], cwd=folder, stdin=subprocess.DEVNULL, stdout=subprocess.PIPE, stderr=errors,
        env={**os.environ, "QT_QPA_PLATFORM": "offscreen"}, text=True, errors="replace", start_new_session=True)
    try:
        text, _ = process.communicate(timeout=SECONDS)
    except subprocess.TimeoutExpired:
        raise Differs(f"{words[0]} hadn't ended after {SECONDS} s") from None
    finally:
        with contextlib.suppress(ProcessLookupError):
            os.killpg(process.pid, signal.SIGKILL)
    return process.returncode, text


def output(words, folder):
    """What a program printed that ended well."""
    status, text = run(words, folder)
    if status != 0:
        raise Differs(f"{words[0]} ended with {status}: {last_line(text)}")
    return text


def last_line(text):
    lines = [line.strip() for line in text.splitlines() if line.strip()]
    return lines[-1] if lines else "nothing printed"


def demand(holds, words):
    if not holds:
        raise Differs(words)


def same_sets(name, found, wanted):
    """Refuses two sets that differ, and names one item that only one of them has."""
    found, wanted = set(found), set(wanted)
    demand(found >= wanted, f"{name}: lacks {min(wanted - found, default=None)}")
    demand(found <= wanted, f"{name}: has {min(found - wanted, default=None)} besides")
