"""Computes definitions of specs/ files: functions by cases over numbers, lists, texts and constructors.

This is no checker. It reads the part of the language that the definitions of the netlist and of the written subcircuits
are in, so that another program's files can be compared with what the definitions say.
"""
import re
import sys

sys.setrecursionlimit(100000)
TOKEN = re.compile(r'"[^"]*"|\+\+|[(){};,∷λ]|\.(?=[A-Za-z0-9_])|\.|[^\s(){};,.∷λ"]+')


class Function:
    """A function of so many arguments, some of which may be given already."""

    def __init__(self, count, call, given=()):
        self.count, self.call, self.given = count, call, given

    def __call__(self, value):
        given = self.given + (value,)
        if len(given) < self.count:
            return Function(self.count, self.call, given)
        return self.call(*given)


def function(count):
    return lambda call: Function(count, call)


def flattened(lists):
    return [item for items in lists for item in items]


BUILT_IN = {
    "codes": Function(1, lambda text: text),
    "decimal": Function(1, lambda n: [ord(c) for c in str(n)]),
    "map": Function(2, lambda f, items: [f(item) for item in items]),
    "flat_map": Function(2, lambda f, items: flattened(f(item) for item in items)),
    "length": Function(1, len),
    "nat_eq": Function(2, lambda a, b: a == b),
    "pointwise": Function(3, lambda same, a, b: len(a) == len(b) and all(same(x)(y) for x, y in zip(a, b))),
    "suc": Function(1, lambda n: n + 1),
    "zero": 0,
    "true": True,
    "false": False,
    "[]": [],
}
LEVELS = [["++"], ["+", "-"], ["∷"], ["*", "/", "%"]]
OPERATORS = {
    "++": lambda a, b: a + b,
    "+": lambda a, b: a + b,
    "-": lambda a, b: max(a - b, 0),
    "∷": lambda a, b: [a] + b,
    "*": lambda a, b: a * b,
    "/": lambda a, b: a // b if b else 0,
    "%": lambda a, b: a % b if b else a,
}
STOPS = set(OPERATORS) | {")", "}", ";", ",", "then", "else", "="}


class Parser:
    """Terms and patterns as functions of an environment."""

    def __init__(self, text, constructors, globals_):
        self.tokens = TOKEN.findall(text)
        self.at = 0
        self.constructors = constructors
        self.globals = globals_

    def peek(self):
        return self.tokens[self.at] if self.at < len(self.tokens) else None

    def take(self, wanted=None):
        token = self.peek()
        if wanted is not None and token != wanted:
            raise SyntaxError(f"{wanted} wanted, not {token}: {' '.join(self.tokens)}")
        self.at += 1
        return token

    def term(self):
        if self.peek() == "λ":
            return self.function()
        if self.peek() == "if":
            return self.choice()
        return self.infix(0)

    def function(self):
        self.take("λ")
        name = self.take()
        self.take(".")
        body = self.term()
        return lambda env: Function(1, lambda value: body({**env, name: value}))

    def choice(self):
        self.take("if")
        test = self.term()
        self.take("then")
        yes = self.term()
        self.take("else")
        no = self.term()
        return lambda env: yes(env) if test(env) else no(env)

    def infix(self, level):
        if level == len(LEVELS):
            return self.application()
        left = self.infix(level + 1)
        while self.peek() in LEVELS[level]:
            sign = self.take()
            right_to_left = sign == "∷"
            right = self.infix(level if right_to_left else level + 1)
            left = self.joined(OPERATORS[sign], left, right)
        return left

    @staticmethod
    def joined(operator, left, right):
        return lambda env: operator(left(env), right(env))

    def application(self):
        head = self.atom()
        while self.peek() is not None and self.peek() not in STOPS:
            argument = self.atom()
            head = (lambda f, x: lambda env: f(env)(x(env)))(head, argument)
        return head

    def atom(self):
        value = self.plain()
        while self.peek() == "." and self.at + 1 < len(self.tokens):
            self.take(".")
            field = self.take()
            value = (lambda v, f: lambda env: v(env)[int(f) if f.isdigit() else f])(value, field)
        return value

    def plain(self):
        token = self.take()
        if token == "(":
            return self.group()
        if token == "record":
            return self.record()
        if token.startswith('"'):
            text = [ord(c) for c in token[1:-1]]
            return lambda env: text
        if token.isdigit():
            return lambda env: int(token)
        if token in self.constructors:
            return lambda env: self.constructor(token)
        return lambda env: env[token] if token in env else self.global_(token)

    def constructor(self, name):
        count = self.constructors[name]
        return (name,) if count == 0 else Function(count, lambda *values: (name,) + values)

    def global_(self, name):
        return self.globals[name] if name in self.globals else BUILT_IN[name]

    def group(self):
        parts = [self.term()]
        while self.peek() == ",":
            self.take(",")
            parts.append(self.term())
        self.take(")")
        return parts[0] if len(parts) == 1 else lambda env: tuple(part(env) for part in parts)

    def record(self):
        self.take("{")
        fields = {}
        while self.peek() != "}":
            name = self.take()
            self.take("=")
            fields[name] = self.term()
            if self.peek() == ";":
                self.take(";")
        self.take("}")
        return lambda env: {name: field(env) for name, field in fields.items()}

    def pattern(self):
        token = self.take()
        if token == "(":
            inside = self.parts()
            self.take(")")
            return inside
        if token in self.constructors:
            return lambda value, env: value == (token,)
        if token in ("zero", "[]", "true", "false"):
            return lambda value, env: value == BUILT_IN[token] and isinstance(value, type(BUILT_IN[token]))
        return lambda value, env: env.update({token: value}) is None

    def parts(self):
        if self.peek() == "suc":
            self.take()
            below = self.pattern()
            return lambda value, env: value > 0 and below(value - 1, env)
        if self.peek() in self.constructors:
            name = self.take()
            inner = []
            while self.peek() != ")":
                inner.append(self.pattern())
            return lambda value, env: value[0] == name and all(p(v, env) for p, v in zip(inner, value[1:]))
        first = self.pattern()
        if self.peek() != "∷":
            return first
        self.take("∷")
        rest = self.parts()
        return lambda value, env: value != [] and first(value[0], env) and rest(value[1:], env)


def constructors_in(text):
    """The constructors of each data type, with the counts of their arguments."""
    found = {}
    for block in re.findall(r"^(?:pub )?data [^\n]*where\n((?:  .*\n|\n)*)", text, re.M):
        for name, kind in re.findall(r"^  ([A-Z]\w*) : (.*)$", block, re.M):
            found[name] = kind.count("→")
    return found


def clauses_in(text):
    """The clauses of each function, as the text before and after the first sign of equality."""
    code = "\n".join(line.split("--")[0].rstrip() for line in text.split("\n"))
    statements = re.split(r"\n(?=\S)", code)
    known = {}
    for statement in statements:
        named = re.match(r"(?:abbrev |unfoldable )?pub ([^\s:]+) :", statement)
        if named:
            known[named.group(1)] = []
            continue
        head = statement.split(None, 1)[0] if statement.split() else ""
        if head in known and "=" in statement:
            left, right = statement.split("=", 1)
            known[head].append((left.split(None, 1)[1] if len(left.split(None, 1)) > 1 else "", right))
    return known


def read_definitions(paths, constructors):
    """The definitions of these files as Python functions and values."""
    texts = [open(path, encoding="utf-8").read() + "\n" for path in paths]
    constructors = dict(constructors)
    for text in texts:
        constructors.update(constructors_in(text))
    defined = {}
    for text in texts:
        for name, clauses in clauses_in(text).items():
            if clauses:
                defined[name] = made(name, clauses, constructors, defined)
    return Definitions(defined)


class Definitions(dict):
    """Values wait until they are asked for, since they may speak of later ones."""

    def __getitem__(self, name):
        value = dict.__getitem__(self, name)
        return value() if isinstance(value, Waiting) else value


class Waiting:
    def __init__(self, make):
        self.make = make

    def __call__(self):
        return self.make()


def made(name, clauses, constructors, defined):
    cases = []
    for left, right in clauses:
        parser = Parser(left, constructors, Asking(defined))
        patterns = []
        while parser.peek() is not None:
            patterns.append(parser.pattern())
        cases.append((patterns, Parser(right, constructors, Asking(defined)).term()))
    count = len(cases[0][0])

    def call(*values):
        for patterns, body in cases:
            env = {}
            if all(pattern(value, env) for pattern, value in zip(patterns, values)):
                return body(env)
        raise ValueError(f"no case of {name} fits {values}")

    return Function(count, call) if count else Waiting(call)


class Asking:
    def __init__(self, defined):
        self.defined = defined

    def __contains__(self, name):
        return name in self.defined

    def __getitem__(self, name):
        value = self.defined[name]
        return value() if isinstance(value, Waiting) else value
