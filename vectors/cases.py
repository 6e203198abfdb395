"""Cases as bytes: the operation's number, two operands and the answer, the last three as big-endian words."""
import random
import struct
from itertools import islice

from muenglavot_reference.doubles import POINT, pattern_of, place_of, round_up, worth
from operands import PRODUCT, QUOTIENT, SUM, operands

NAMES = {SUM: "sum", PRODUCT: "product", QUOTIENT: "quotient"}
CASE = struct.Struct(">BQQQ")


def exact(operation, a, b):
    """The exact result as a fraction with a positive divisor, in units of 2^-1074."""
    x, y = worth(place_of(a)), worth(place_of(b))
    if operation == SUM:
        return x + y, 1
    if operation == PRODUCT:
        return x * y, 1 << POINT
    return (x << POINT, y) if y > 0 else (-x << POINT, -y)


def answer(operation, a, b):
    return pattern_of(round_up(*exact(operation, a, b)))


def cases(seed, count):
    """`count` cases of each operation."""
    for operation in NAMES:
        rng = random.Random(seed * 16 + operation)
        for a, b in islice(operands(rng, operation), count):
            yield CASE.pack(operation, a, b, answer(operation, a, b))


def all_right(count):
    """What the program writes if every case is right."""
    return "".join(f"{name}: {count} right, 0 wrong\n" for name in NAMES.values())
