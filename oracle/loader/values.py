"""Works each node of a listing out once, by its number, in exact arithmetic."""

from fractions import Fraction
from math import prod

import kinds


class Reading:
    """Values of variables and functions: anything, but equal for the same kind, payload and arguments."""

    def __init__(self, random):
        self.random = random
        self.values = {}

    def value(self, kind, payload, arguments):
        key = (kind, payload, arguments)
        if key not in self.values:
            self.values[key] = Fraction(self.random.randint(-5000, 5000), 2 ** self.random.randint(0, 12))
        return self.values[key]


def work_out(nodes, reading):
    """The value of each node, by its number."""
    values = []
    for node in nodes:
        values.append(value_of(node, [values[child] for child in node.children], reading))
    return values


def value_of(node, arguments, reading):
    match node.kind:
        case kinds.CONSTANT:
            return kinds.number(node.payload)
        case kinds.ADD:
            return sum(arguments, Fraction(0))
        case kinds.SUB:
            return arguments[0] - arguments[1]
        case kinds.MUL:
            return prod(arguments, start=Fraction(1))
        case kinds.NEG:
            return -arguments[0]
        case _:
            return reading.value(node.kind, node.payload, tuple(arguments))
