"""What a module means, as crates/verilog_modules/specs/Meaning.antt states it, and meanings that are wrong.

A bit is 0, 1 or None. A state is a pair of dictionaries: registers by name, words by memory and address. Of each, `BITS` bits are kept.
"""

BITS = 80  # every index in use is below


def or_bit(one, other):
    return 1 if 1 in (one, other) else None if None in (one, other) else 0


def not_bit(bit):
    return None if bit is None else 1 - bit


class Meaning:
    """Of one module."""

    def __init__(self, module):
        self.module = module
        self.values = {}
        for name, amount in module.parameters:
            self.values[name] = amount[1] if amount[0] == "Number" else 1 << self.values.get(amount[1], 0)
        self.widths, self.depths = {}, {}
        for kind, width, name, *depth in module.declarations:
            self.widths.setdefault(name, 1 if width is None else self.values.get(width, 0))
            if kind == "Memory":
                self.depths.setdefault(name, self.values.get(depth[0], 0))
        self.inputs = set(module.names("Input"))

    # Values

    def signal(self, given, state, name):
        return given[name] if name in self.inputs else state[0].get(name, [None] * BITS)

    def address(self, given, state, name):
        bits = self.signal(given, state, name)[:self.widths[name]]
        return None if None in bits else sum(bit << index for index, bit in enumerate(bits))

    def word_at(self, state, memory, address):
        if address is None or address >= self.depths[memory]:
            return [None] * BITS
        return state[1].get((memory, address), [None] * BITS)

    def part(self, name, bits, low):
        """Bits from a low one on: those that aren't there are x."""
        return [bits[low + index] if low + index < self.widths[name] else None for index in range(BITS)]

    def size_of(self, expression):
        kind, name, *rest = expression
        if kind == "BitOf":
            return 1
        return rest[0] + 1 - rest[1] if kind == "PartOf" else self.widths[name]

    def bits_of(self, given, state, expression):
        kind, name, *rest = expression
        if kind == "Element":
            return self.word_at(state, name, self.address(given, state, rest[0]))
        bits = self.signal(given, state, name)
        return bits if kind == "Whole" else self.part(name, bits, rest[-1])

    def value(self, given, state, expression):
        bits, size = self.bits_of(given, state, expression), self.size_of(expression)
        return [bits[index] if index < size else 0 for index in range(BITS)]

    # Conditions

    def truth(self, size, bits):
        found = 0
        for bit in bits[:size]:
            found = or_bit(bit, found)
        return found

    def and_bit(self, one, other):
        return not_bit(or_bit(not_bit(one), not_bit(other)))

    def condition(self, given, state, terms):
        found = 1
        for negated, expression in reversed(terms):
            bit = self.truth(self.size_of(expression), self.value(given, state, expression))
            found = self.and_bit(not_bit(bit) if negated else bit, found)
        return found

    def is_carried_out(self, condition):
        return condition == 1

    # Assignments

    def updates(self, given, state, statement):
        """(memory or None, address or register, low, size, bits) of each assignment, all evaluated in this state."""
        if statement[0] == "If":
            return self.updates(given, state, statement[2]) if self.is_carried_out(self.condition(given, state, statement[1])) else []
        if statement[0] == "Block":
            return [update for inner in statement[1] for update in self.updates(given, state, inner)]
        (kind, name, *rest), bits = statement[1], self.value(given, state, statement[2])
        if kind == "ToRegister":
            return [(None, name, 0, BITS, bits)]
        low, size = (rest[2], self.part_size(rest[1], rest[2])) if kind == "ToPart" else (0, self.widths[name])
        return [(name, self.address(given, state, rest[0]), low, size, bits)]

    def part_size(self, high, low):
        return high + 1 - low

    def place_of(self, address):
        """Where a word with this address is written; nowhere, where the address has an x."""
        return address

    def updated(self, update, state):
        memory, place, low, size, bits = update
        registers, words = dict(state[0]), dict(state[1])
        if memory is None:
            registers[place] = bits
        elif self.place_of(place) is not None:
            key = (memory, self.place_of(place))
            old = words.get(key, [None] * BITS)
            words[key] = [bits[index - low] if low <= index < low + size else old[index] for index in range(BITS)]
        return registers, words

    # Edges, and the start

    def in_order(self, updates):
        return updates

    def edge(self, edge, clock, given, state, dice):
        blocks = [body for kind, name, body in self.module.always if (kind, name) == (edge, clock)]
        dice.shuffle(blocks)
        return self.carried_out(blocks, given, state)

    def carried_out(self, blocks, given, state):
        end = state
        for update in self.in_order([update for body in blocks for update in self.updates(given, state, body)]):
            end = self.updated(update, end)
        return end

    def constant(self, size, digits):
        number = int(digits, 16)
        return [number >> index & 1 if index < size else 0 for index in range(BITS)]

    def start(self, dice, state):
        """Once the initial blocks are done; nothing is known at first, if this isn't a state that they are to begin with."""
        blocks = list(self.module.initial)
        dice.shuffle(blocks)
        for memory, address, size, digits in [setting for settings in blocks for setting in settings]:
            state = self.updated((memory, address, 0, self.widths[memory], self.constant(size, digits)), state)
        return state


# Wrong meanings: Icarus has to differ from each


class ConditionIsX(Meaning):
    """An x condition is carried out."""

    def is_carried_out(self, condition):
        return condition != 0


class AbsentBitIsZero(Meaning):
    """Bits that aren't there are 0."""

    def part(self, name, bits, low):
        return [bits[low + index] if low + index < self.widths[name] else 0 for index in range(BITS)]


class NoZerosAbove(Meaning):
    """A value isn't extended by zeros."""

    def value(self, given, state, expression):
        return self.bits_of(given, state, expression)


class Blocking(Meaning):
    """What a statement assigns is there for the next one."""

    def updates_in_turn(self, given, state, statement):
        if statement[0] == "Block":
            for inner in statement[1]:
                state = self.updates_in_turn(given, state, inner)
            return state
        for update in self.updates(given, state, statement):
            state = self.updated(update, state)
        return state

    def carried_out(self, blocks, given, state):
        for body in blocks:
            state = self.updates_in_turn(given, state, body)
        return state


class UnknownAddressIsZero(Meaning):
    """An address with an x writes word 0."""

    def place_of(self, address):
        return address or 0


class AbsentWordIsZero(Meaning):
    """A word that isn't there reads 0."""

    def word_at(self, state, memory, address):
        absent = address is None or address >= self.depths[memory]
        return [0] * BITS if absent else super().word_at(state, memory, address)


class LowBitDecides(Meaning):
    """A value is true where its lowest bit is 1."""

    def truth(self, size, bits):
        return bits[0]


class UnknownAndZero(Meaning):
    """x && 0 is x."""

    def and_bit(self, one, other):
        return None if None in (one, other) else one & other


class UnknownOrOne(Meaning):
    """A value with a 1 and an x is x."""

    def truth(self, size, bits):
        return None if None in bits[:size] else max([0, *bits[:size]])


class PartEndsEarly(Meaning):
    """A part ends one bit below its high one."""

    def part_size(self, high, low):
        return high - low


class FirstWins(Meaning):
    """Of two assignments the first wins."""

    def in_order(self, updates):
        return updates[::-1]


class EdgesExchanged(Meaning):
    """What waits for one edge is done at the other."""

    def edge(self, edge, clock, given, state, dice):
        return super().edge("Falling" if edge == "Rising" else "Rising", clock, given, state, dice)


class HighestDigitLast(Meaning):
    """The first digit of a constant is its lowest."""

    def constant(self, size, digits):
        return super().constant(size, digits[::-1])


# A condition asks only for a 1, so no module of this language tells x && 0 from x.
SAME = [UnknownAndZero]
WRONG = [ConditionIsX, AbsentBitIsZero, NoZerosAbove, Blocking, UnknownAddressIsZero, AbsentWordIsZero, LowBitDecides, UnknownOrOne, PartEndsEarly,
         FirstWins, EdgesExchanged, HighestDigitLast]
