"""Kinds of nodes, and the number of a constant."""

import math
import struct
from fractions import Fraction

VARIABLE = 0
CONSTANT = 1
ADD = 2
SUB = 3
MUL = 4
DIV = 5
POW = 6
NEG = 8


def double(bits):
    """The binary64 number with these bits."""
    return struct.unpack(">d", struct.pack(">Q", bits))[0]


def bits_of(number):
    return struct.unpack(">Q", struct.pack(">d", number))[0]


def is_finite(bits):
    return math.isfinite(double(bits))


def number(bits):
    """01: "a constant its own number, both zeros 0". What is not finite is in no formula of the exact kind."""
    return Fraction(double(bits)) if is_finite(bits) else Fraction(0)
