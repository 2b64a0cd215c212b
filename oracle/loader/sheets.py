"""Random sheets: formulas over constants in steps of 1/1024, simplified and pruned."""

from dataclasses import dataclass
from math import nextafter
from random import Random

import kinds

# Operators by their number in a record, with the numbers of operands that they take.
ADD, SUB, MUL, MOD, NEG = 0, 1, 2, 5, 6
CHILD_COUNTS = {ADD: (1, 2, 2, 2, 3, 4), SUB: (2,), MUL: (1, 2, 2, 2, 3), MOD: (2,), NEG: (1,)}
CONTROL_CHILDREN = (3, 3, 4)
STEPS = 1024
# The most arguments of a function (02 g).
ARGUMENTS_MAXIMUM = 16
AMPLE_BUDGET = 20_000
DEPTH_MAXIMUM = 255


@dataclass(frozen=True)
class Record:
    body: bytes
    # the record that is simplified or pruned, or nothing
    operand: int | None = None
    # a prune's threshold, or nothing
    threshold: float | None = None


def numbered(seed, number):
    """The records of sheet `number`: the same in every run."""
    random = Random(f"{seed} {number}")
    palette = [constant(random) for _ in range(random.randint(1, 5))]
    records = [leaf(random, palette) for _ in range(random.randint(2, 6))]
    simplified = []
    for _ in range(random.randint(1, 3)):
        for _ in range(random.randint(2, 8)):
            records.append(node(random, palette, len(records)))
        for _ in range(random.randint(0, 3)):
            records.extend(term_more(random, palette, len(records)))
        simplified.append(len(records))
        records.append(simplify(random, recent(random, len(records)) if random.random() < 0.3 else len(records) - 1))
        for _ in range(random.randint(1, 3)):
            operand = random.choice(simplified) if random.random() < 0.9 else recent(random, len(records))
            records.append(prune(random, palette, operand))
    return records


def sheet_of(records):
    return b"\x01" + b"".join(len(record.body).to_bytes(2, "big") + record.body for record in records)


def constant(random):
    steps = random.choice([random.randint(-4096, 4096), random.randint(-150, 150), STEPS * random.randint(-3, 3)])
    return random.choice([steps / STEPS, steps / STEPS, steps / STEPS, 0.0, -0.0, 1.0, -1.0, 0.5, 2.0])


def leaf(random, palette):
    if random.random() < 0.5:
        return Record(b"\x01" + random.randint(0, 3).to_bytes(4, "big"))
    return Record(b"\x02" + kinds.bits_of(random.choice(palette)).to_bytes(8, "big"))


def node(random, palette, count):
    choice = random.random()
    if choice < 0.15:
        return leaf(random, palette)
    if choice < 0.22:
        number = random.randint(0, 2).to_bytes(4, "big")
        arguments = random.randint(0, random.choice([4, ARGUMENTS_MAXIMUM]))
        return Record(b"\x04" + number + operands(random, count, arguments))
    if choice < 0.26:
        control = random.randint(0, 2)
        return Record(bytes([5, control]) + operands(random, count, CONTROL_CHILDREN[control]))
    operator = random.choices([ADD, SUB, MUL, MOD, NEG], [10, 3, 4, 1, 3])[0]
    flags = random.choice([0, 3, 3])
    return Record(bytes([3, operator, flags]) + operands(random, count, random.choice(CHILD_COUNTS[operator])))


def term_more(random, palette, count):
    """A constant, and the sum of it and the last record, on either side."""
    pair = [count - 1, count]
    random.shuffle(pair)
    body = bytes([3, ADD, random.choice([0, 3])]) + b"".join(operand.to_bytes(2, "big") for operand in pair)
    return [Record(b"\x02" + kinds.bits_of(random.choice(palette)).to_bytes(8, "big")), Record(body)]


def recent(random, count):
    """An earlier record, mostly one of the last four."""
    return count - 1 - random.randrange(min(count, 4)) if random.random() < 0.7 else random.randrange(count)


def operands(random, count, number):
    return b"".join(recent(random, count).to_bytes(2, "big") for _ in range(number))


def simplify(random, operand):
    depth = random.randint(0, 4) if random.random() < 0.15 else DEPTH_MAXIMUM
    budget = random.randint(0, 9) if random.random() < 0.1 else AMPLE_BUDGET
    return Record(b"\x06" + operand.to_bytes(2, "big") + bytes([depth]) + budget.to_bytes(4, "big"), operand)


def prune(random, palette, operand):
    """At an end, at a magnitude that occurs or beside it, or at any threshold from 0 to 1."""
    magnitude = min(1.0, abs(random.choice(palette)))
    beside = nextafter(magnitude, random.choice([0.0, 1.0]))
    threshold = abs(random.choice([0.0, 1.0, magnitude, beside, random.randint(0, STEPS) / STEPS, random.random()]))
    body = b"\x07" + operand.to_bytes(2, "big") + kinds.bits_of(threshold).to_bytes(8, "big")
    return Record(body, operand, threshold)
