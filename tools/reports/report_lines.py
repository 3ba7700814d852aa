"""The lines that `check` prints, for the scripts of this folder that show a report in another form.

If a line is not a violation, for instance because an input was refused, the line goes to standard error, nothing is written and the status is 3.
Given --status, the status of the program, the same happens if status and report don't agree: an empty report with status 1, violations
with status 0, or any other status.
"""
import argparse
import re
import sys
from typing import NamedTuple

SHAPE = r" ([A-Za-z0-9_]+) (-?\d+) (-?\d+) (-?\d+) (-?\d+)"
VIOLATION = re.compile(rf"(\d+){SHAPE}(?:{SHAPE})?")


class Shape(NamedTuple):
    layer: str
    x1: int
    y1: int
    x2: int
    y2: int


class Violation(NamedTuple):
    rule: int
    shapes: list
    line: str


def refuse(why):
    print(why, file=sys.stderr)
    sys.exit(3)


def shape(words):
    return Shape(words[0], *map(int, words[1:]))


def read_report(lines):
    violations = []
    for line in lines:
        line = line.rstrip("\n")
        match = VIOLATION.fullmatch(line)
        if match is None:
            refuse(line)
        words = match.groups()
        shapes = [shape(words[1:6])] + ([] if words[6] is None else [shape(words[6:])])
        violations.append(Violation(int(words[0]), shapes, line))
    return violations


def check_status(status, violations):
    """Refuses a report that isn't whole: only with 0, nothing found, and 1, violations, it is."""
    if status not in ("0", "1"):
        refuse(f"the program ended with status {status}: the report is incomplete")
    if (status == "1") != bool(violations):
        refuse(f"the program ended with status {status} but the report has {len(violations)} violations")


def describe(rule):
    layers = [rule["layer"]]
    if rule["kind"] == "space":
        layers.append(rule["other"])
    if rule["kind"] == "enclose":
        layers.append("by " + " or ".join(rule["by"]))
    return " ".join([rule["kind"], *layers, str(rule["min"])])


def descriptions(name):
    """The rules of a technology file in words, by number."""
    import tomllib

    with open(name, "rb") as file:
        return dict(enumerate(map(describe, tomllib.load(file).get("rule", []))))


def from_words(tool, file_too=False):
    """The words of a script with the violations on standard input: `words.top`, `words.rules`, `words.violations`, `words.file`."""
    parser = argparse.ArgumentParser(prog=f"tools/reports/{tool}")
    parser.add_argument("--status", help="the status that the program ended with")
    if file_too:
        parser.add_argument("--file", help="the layout's name")
    parser.add_argument("top", metavar="TOP")
    parser.add_argument("tech", metavar="TECH", nargs="?", help="the technology file, to describe the rules (Python 3.11 or later)")
    words = parser.parse_args()
    words.violations = read_report(sys.stdin)
    if words.status is not None:
        check_status(words.status, words.violations)
    try:
        words.rules = descriptions(words.tech) if words.tech else {}
    except (OSError, ValueError) as error:
        refuse(f"{tool}: {error}")
    return words
