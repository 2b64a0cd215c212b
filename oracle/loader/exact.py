"""Which nodes have a formula of 01's exact kind."""

from fractions import Fraction
from math import prod

import kinds

# "Every reachable node has W*2^P at most 2^53."
BOUND = 2**53


def exact(nodes):
    """By number, whether the node and all that is reachable from it are of the exact kind."""
    bounds = []
    answers = []
    for node in nodes:
        bounds.append(bound_of(node, [bounds[child] for child in node.children]))
        answers.append(is_exact(node, bounds[-1]) and all(answers[child] for child in node.children))
    return answers


def is_exact(node, bound):
    """Whether the node itself is no Div or Pow, is finite if a constant, and is within the bound."""
    bits, size = bound
    if node.kind in (kinds.DIV, kinds.POW) or (node.kind == kinds.CONSTANT and not kinds.is_finite(node.payload)):
        return False
    return size * 2**bits <= BOUND


def bound_of(node, bounds):
    """P and W."""
    match node.kind:
        case kinds.CONSTANT:
            value = kinds.number(node.payload)
            return value.denominator.bit_length() - 1, max(Fraction(1), abs(value))
        case kinds.ADD | kinds.SUB:
            return max(bits for bits, _ in bounds), sum((size for _, size in bounds), Fraction(0))
        case kinds.MUL:
            return sum(bits for bits, _ in bounds), prod((size for _, size in bounds), start=Fraction(1))
        case kinds.NEG:
            return bounds[0]
        case _:
            return 0, Fraction(1)
