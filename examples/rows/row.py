"""A row: words and input files, and what the program has to answer; what of an answer differs from that, and faults planted in a row."""
from dataclasses import dataclass, field, replace

GAP = "..."


@dataclass(frozen=True)
class Row:
    """The text is all that is printed, unless it has gaps, where anything may stand. `views` are files that are there at the end, each with
    lines that it has, and `absent` files that aren't."""
    name: str
    words: list
    files: dict
    text: str = ""
    status: int = 0
    views: dict = field(default_factory=dict)
    absent: tuple = ()


@dataclass(frozen=True)
class Answer:
    text: str
    status: int
    files: dict


def agrees(printed, text):
    first, *others = text.split(GAP)
    if not others:
        return printed == text
    if not printed.startswith(first):
        return False
    place = len(first)
    for part in others:
        place = printed.find(part, place)
        if place < 0:
            return False
        place += len(part)
    return True


def differences(row, answer):
    found = []
    if answer.status != row.status:
        found.append(f"status {answer.status}, expected {row.status}")
    if not agrees(answer.text, row.text):
        found.append(f"printed {answer.text!r}, expected {row.text!r}")
    for name, lines in row.views.items():
        if name not in answer.files:
            found.append(f"no file {name}")
        found += [f"no {line!r} in {name}" for line in lines if line.encode() not in answer.files.get(name, b"")]
    return found + [f"a file {name}" for name in row.absent if name in answer.files]


def other_texts(text):
    """The text with one part ended by another character, part by part; and with more behind it, if it is whole."""
    parts = text.split(GAP)
    for number, part in enumerate(parts):
        if part:
            yield GAP.join([*parts[:number], part[:-1] + "#", *parts[number + 1:]])
    if len(parts) == 1:
        yield text + "#"


def other_views(views):
    """The views with one line changed, line by line; and with another one that isn't there."""
    for name, lines in views.items():
        for number, line in enumerate(lines):
            yield {**views, name: [*lines[:number], line[:-1] + "#", *lines[number + 1:]]}
    yield {**views, "no such view": []}


def planted(row):
    """The row with one fault, for each that can be planted."""
    yield replace(row, status=row.status + 1)
    yield from (replace(row, text=text) for text in other_texts(row.text))
    yield from (replace(row, views=views) for views in other_views(row.views))
    if row.files:
        yield replace(row, absent=(*row.absent, next(iter(row.files))))


def refused(name, words, files, line, absent=()):
    return Row(name, words, files, f"openram: {line}\n", 3, absent=absent)


def changed(files, *changes):
    """The files with changes: in the file `name`, behind the first `after`, the first `old` becomes `new`."""
    files = dict(files)
    for name, after, old, new in changes:
        content = files[name]
        place = content.index(old, content.index(after) + len(after))
        files[name] = content[:place] + new + content[place + len(old):]
    return files
