"""Modules of the part of Verilog that a memory's view uses, as trees: what crates/verilog_modules/specs states in Tree, Tokens and Grammar.

A tree is made of tuples, which begin with the constructor's name; a module is a `Module`. `spelled` writes one with random blanks, and
`parsed` reads one back.
"""
from dataclasses import dataclass, field

BLANKS = " \t\n\f"
OPERATORS = ("<=", "<<", "&&")


@dataclass
class Module:
    name: str
    ports: list
    parameters: list  # (name, ("Number", n)) or (name, ("PowerOf", parameter))
    declarations: list  # ("Input", range, name), "Output", "Register", or ("Memory", width, name, depth); a range is None or a parameter
    initial: list = field(default_factory=list)  # lists of (memory, address, size, digits)
    always: list = field(default_factory=list)  # (edge, clock, statement)

    def names(self, *kinds):
        return [declaration[2] for declaration in self.declarations if declaration[0] in kinds]


def is_word(byte):
    return byte.isascii() and (byte.isalnum() or byte == "_")


def are_joined(byte, other):
    return is_word(byte) and is_word(other) or byte + other in OPERATORS or byte == "'" and is_word(other)


def tokens_of(text):
    tokens, before = [], None
    for byte in text:
        if byte in BLANKS:
            before = None
            continue
        if before is not None and are_joined(before, byte):
            tokens[-1] += byte
        else:
            tokens.append(byte)
        before = byte
    return tokens


# Grammar

KEYWORDS = {"Input": "input", "Output": "output", "Register": "reg", "Rising": "posedge", "Falling": "negedge"}


def range_tokens(width):
    return [] if width is None else ["[", width, "-", "1", ":", "0", "]"]


def declaration_tokens(declaration):
    if declaration[0] == "Memory":
        _, width, name, depth = declaration
        return ["reg", *range_tokens(width), name, "[", "0", ":", depth, "-", "1", "]", ";"]
    kind, width, name = declaration
    return [KEYWORDS[kind], *range_tokens(width), name, ";"]


def amount_tokens(amount):
    return [str(amount[1])] if amount[0] == "Number" else ["1", "<<", amount[1]]


def setting_tokens(setting):
    memory, address, size, digits = setting
    return [memory, "[", str(address), "]", "=", str(size), "'h" + digits, ";"]


def part_tokens(high, low):
    return ["[", str(high), ":", str(low), "]"]


def place_tokens(place):
    """Of an expression or of a target."""
    kind, name, *rest = place
    if kind in ("Element", "ToWord"):
        return [name, "[", rest[0], "]"]
    if kind == "BitOf":
        return [name, "[", str(rest[0]), "]"]
    if kind == "PartOf":
        return [name, *part_tokens(*rest)]
    return [name, "[", rest[0], "]", *part_tokens(*rest[1:])] if kind == "ToPart" else [name]


def statement_tokens(statement):
    if statement[0] == "Assign":
        return [*place_tokens(statement[1]), "<=", *place_tokens(statement[2]), ";"]
    if statement[0] == "If":
        terms = []
        for index, (negated, of) in enumerate(statement[1]):
            terms += (["&&"] if index else []) + (["!"] if negated else []) + place_tokens(of)
        return ["if", "(", *terms, ")", *statement_tokens(statement[2])]
    return ["begin", *(token for inner in statement[1] for token in statement_tokens(inner)), "end"]


def module_tokens(module):
    tokens = ["module", module.name, "("]
    for index, port in enumerate(module.ports):
        tokens += [","] * bool(index) + [port]
    tokens += [")", ";"]
    for name, amount in module.parameters:
        tokens += ["parameter", name, "=", *amount_tokens(amount), ";"]
    for declaration in module.declarations:
        tokens += declaration_tokens(declaration)
    for settings in module.initial:
        tokens += ["initial", "begin", *(token for setting in settings for token in setting_tokens(setting)), "end"]
    for edge, clock, body in module.always:
        tokens += ["always", "@", "(", KEYWORDS[edge], clock, ")", *statement_tokens(body)]
    return [*tokens, "endmodule"]


def spelled(module, dice, blanks=BLANKS):
    text = ""
    for token in module_tokens(module):
        if text and (are_joined(text[-1], token[0]) or dice.random() < 0.4):
            text += "".join(dice.choice(blanks) for _ in range(dice.randint(1, 3)))
        text += token
    return text + "\n"


# A text's module. What isn't in the language ends in an AssertionError or an IndexError.


class Reader:
    def __init__(self, text):
        self.tokens, self.at = tokens_of(text), 0

    def peek(self, ahead=0):
        return self.tokens[self.at + ahead]

    def next(self):
        self.at += 1
        return self.tokens[self.at - 1]

    def skip(self, *tokens):
        for token in tokens:
            found = self.next()
            assert found == token, f"{found} in place of {token}"

    def skipped(self, token):
        found = self.peek() == token
        self.at += found
        return found

    def width(self):
        if not self.skipped("["):
            return None
        name = self.next()
        self.skip("-", "1", ":", "0", "]")
        return name

    def declaration(self):
        kind, width, name = self.next(), self.width(), self.next()
        if self.skipped("["):
            self.skip("0", ":")
            depth = self.next()
            self.skip("-", "1", "]", ";")
            return ("Memory", width, name, depth)
        self.skip(";")
        return ({"input": "Input", "output": "Output", "reg": "Register"}[kind], width, name)

    def settings(self):
        self.skip("begin")
        settings = []
        while not self.skipped("end"):
            memory = self.next()
            self.skip("[")
            address = int(self.next())
            self.skip("]", "=")
            settings.append((memory, address, int(self.next()), self.next().removeprefix("'h")))
            self.skip(";")
        return settings

    def place(self):
        """An expression; a target is told from it by `as_target`."""
        name = self.next()
        if not self.skipped("["):
            return ("Whole", name)
        index = self.next()
        if self.skipped(":"):
            place = ("PartOf", name, int(index), int(self.next()))
        else:
            place = ("BitOf", name, int(index)) if index.isdigit() else ("Element", name, index)
        self.skip("]")
        if place[0] == "Element" and self.skipped("["):
            high = int(self.next())
            self.skip(":")
            place = ("ToPart", name, index, high, int(self.next()))
            self.skip("]")
        return place

    def statement(self):
        if self.skipped("begin"):
            inner = []
            while not self.skipped("end"):
                inner.append(self.statement())
            return ("Block", inner)
        if self.skipped("if"):
            self.skip("(")
            terms = [(self.skipped("!"), self.place())]
            while self.skipped("&&"):
                terms.append((self.skipped("!"), self.place()))
            self.skip(")")
            return ("If", terms, self.statement())
        target = self.place()
        self.skip("<=")
        value = self.place()
        self.skip(";")
        return ("Assign", ({"Whole": "ToRegister", "Element": "ToWord"}.get(target[0], target[0]), *target[1:]), value)

    def module(self):
        self.skip("module")
        module = Module(self.next(), [], [], [])
        self.skip("(")
        while not self.skipped(")"):
            module.ports.append(self.next())
            self.skipped(",")
        self.skip(";")
        while self.skipped("parameter"):
            name = self.next()
            self.skip("=")
            number = self.next()
            module.parameters.append((name, ("PowerOf", self.next()) if self.skipped("<<") else ("Number", int(number))))
            self.skip(";")
        while self.peek() in ("input", "output", "reg"):
            module.declarations.append(self.declaration())
        while self.skipped("initial"):
            module.initial.append(self.settings())
        while self.skipped("always"):
            self.skip("@", "(")
            edge, clock = {"posedge": "Rising", "negedge": "Falling"}[self.next()], self.next()
            self.skip(")")
            module.always.append((edge, clock, self.statement()))
        self.skip("endmodule")
        return module


def parsed(text):
    module = Reader(text).module()
    assert module_tokens(module) == tokens_of(text), "its tokens are those of no module"
    return module
