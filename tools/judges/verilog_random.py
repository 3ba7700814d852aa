"""Random modules of the part of Verilog that a memory's view uses, each of them legal."""
from verilog_trees import Module

FIRST, LATER = "abcdefghXYZ_", "abcdeXYZ0123456789_"


class Maker:
    """Of one module. Each name has a `_` inside, so that it is no keyword of any Verilog that the tools read."""

    def __init__(self, dice):
        self.dice, self.used = dice, set()
        self.parameters, self.widths, self.depths = [], [], []

    def name(self):
        while True:
            name = self.dice.choice(FIRST) + "".join(self.dice.choice(LATER) for _ in range(self.dice.randint(0, 3))) + "_" + self.dice.choice(LATER)
            if name not in self.used:
                self.used.add(name)
                return name

    def some(self, low, high):
        return range(self.dice.randint(low, high))

    def numbers(self):
        for _ in self.some(1, 3):
            name = self.name()
            self.parameters.append((name, ("Number", self.dice.randint(1, 9))))
            self.widths.append(name)
        for _ in self.some(1, 2):
            small = [name for name, amount in self.parameters if amount[0] == "Number" and amount[1] <= 4]
            power = small and self.dice.random() < 0.6
            amount = ("PowerOf", self.dice.choice(small)) if power else ("Number", self.dice.randint(1, 9))
            self.depths.append(self.name())
            self.parameters.append((self.depths[-1], amount))
        amounts = dict(self.parameters)
        self.values = {name: number if kind == "Number" else 1 << amounts[number][1] for name, (kind, number) in self.parameters}

    def width(self):
        return None if self.dice.random() < 0.3 else self.dice.choice(self.widths)

    def size(self, width):
        return 1 if width is None else self.values[width]

    def declared(self, kind, low, high):
        return [(kind, self.width(), self.name()) for _ in self.some(low, high)]

    def declarations(self):
        self.clocks = [self.name() for _ in self.some(1, 2)]
        self.inputs, self.outputs = self.declared("Input", 1, 4), self.declared("Output", 1, 2)
        self.registers = [("Register", width, name) for _, width, name in self.outputs] + self.declared("Register", 1, 4)
        self.memories = [("Memory", self.dice.choice(self.widths), self.name(), self.dice.choice(self.depths)) for _ in self.some(1, 2)]
        self.signals = self.inputs + self.registers
        self.vectors = [signal for signal in self.signals if signal[1] is not None]
        return [("Input", None, clock) for clock in self.clocks] + self.inputs + self.outputs + self.registers + self.memories

    def span(self, size, wild):
        top = size + (2 if wild else 0)
        low = self.dice.randrange(top)
        return self.dice.randrange(low, top), low

    def expression(self):
        choice = self.dice.random()
        if choice < 0.45 or not self.vectors:
            return ("Whole", self.dice.choice(self.signals)[2])
        if choice < 0.65:
            return ("Element", self.dice.choice(self.memories)[2], self.dice.choice(self.signals)[2])
        _, width, name = self.dice.choice(self.vectors)
        high, low = self.span(self.size(width), self.dice.random() < 0.15)
        return ("BitOf", name, low) if choice < 0.8 else ("PartOf", name, high, low)

    def assignment(self, owned):
        kind, width, name, *_ = self.dice.choice(owned)
        if kind == "Register":
            return ("Assign", ("ToRegister", name), self.expression())
        address = self.dice.choice(self.signals)[2]
        if self.dice.random() < 0.5:
            return ("Assign", ("ToWord", name, address), self.expression())
        return ("Assign", ("ToPart", name, address, *self.span(self.size(width), self.dice.random() < 0.15)), self.expression())

    def statement(self, owned, depth):
        choice = self.dice.random()
        if depth == 0 or choice < 0.45:
            return self.assignment(owned)
        if choice < 0.75:
            terms = [(self.dice.random() < 0.5, self.expression()) for _ in self.some(1, 3)]
            return ("If", terms, self.statement(owned, depth - 1))
        return ("Block", [self.statement(owned, depth - 1) for _ in self.some(0, 4)])

    def blocks(self):
        """Each register and each memory is assigned in one block, so that the order of the blocks doesn't matter."""
        shares = [[] for _ in self.some(1, 4)]
        for owned in self.registers + self.memories:
            self.dice.choice(shares).append(owned)
        for owned in filter(None, shares):
            body = ("Block", [self.statement(owned, 3) for _ in self.some(1, 5)])
            yield self.dice.choice(["Rising", "Falling"]), self.dice.choice(self.clocks), body

    def settings(self, memory):
        _, width, name, depth = memory
        for _ in self.some(0, 4):
            size = max(1, self.size(width) + self.dice.randint(-2, 2))
            digits = "".join(self.dice.choice([digit, digit.upper()]) for digit in f"{self.dice.randrange(1 << size):0{(size + 3) // 4}x}")
            yield name, self.dice.randrange(self.values[depth]), size, digits

    def module(self):
        self.numbers()
        declarations = self.declarations()
        ports = self.clocks + [name for _, _, name in self.inputs + self.outputs]
        self.dice.shuffle(ports)
        initial = [list(self.settings(memory)) for memory in self.memories if self.dice.random() < 0.5]
        return Module(self.name(), ports, self.parameters, declarations, initial, list(self.blocks()))


def random_module(dice):
    return Maker(dice).module()
