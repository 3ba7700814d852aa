"""Words that are no form of a command, and files that aren't there."""
from gdsfile import library, rectangle, structure
from rows.layouts import PLAIN
from rows.row import Row, refused

USAGE = (
    ["check", "t.toml", "a.gds", "t", "0"],
    ["check", "t.toml", "a.gds", "t", "65"],
    ["check", "t.toml", "a.gds", "t", "08"],
    ["check", "t.toml", "a.gds", "t"],
    [],
    ["build", "t.toml", "0"],
    ["build", "t.toml", "65"],
    ["build", "t.toml", "08"],
    ["build", "t.toml"],
    ["rom", "t.toml", "a.bin", "0"],
    ["rom", "t.toml", "1"],
    ["demo", "65536", "1"],
    ["demo", "00", "1"],
)
NOT_THERE = (
    (["check", "t.toml", "a.gds", "z", "1"], "31 UnknownStruct z"),
    (["check", "u.toml", "a.gds", "t", "1"], "67 NoFile u.toml"),
    (["check", "t.toml", "b.gds", "t", "1"], "67 NoFile b.gds"),
)


def rows(kit):
    files = {"t.toml": PLAIN, "a.gds": library(structure(b"t", rectangle(10, 0, 0, 4, 4)))}
    for words in USAGE:
        yield Row(" ".join(["the words", *words]), words, files, "openram: 90 Usage\n", 2)
    for words, line in NOT_THERE:
        yield refused(" ".join(["the words", *words]), words, files, line)
