"""Requests for exact ends: drawn with a seed, all pairs of a set of ends, and cases with their answers."""

import sys
from math import inf, ldexp, nextafter, ulp
from pathlib import Path

ROOT = Path(__file__).resolve().parent.parent
sys.path[:0] = [str(ROOT / 'oracle'), str(ROOT / 'python')]

import request_lists
from muenglavot_reference.document import ARITHMETIC, ENDS, NUMBER
from recipes import LARGEST, TINY, Recipes
from request_lists import DECORATED_ENDS, NO_OPERATIONS, all_operands, joined

# Numbers of operations that report no exact ends, the first and the last of them, and of none.
OTHER_NUMBERS = (NUMBER['convex_hull'], NUMBER['strict_precedes'], *NO_OPERATIONS)


class ExactRecipes(Recipes):
    """The oracle's recipes, and others for ends that are often exact, or nearly so."""

    def __init__(self, rng):
        super().__init__(rng)
        for name, recipes in (
                ('neg', (self.whole_numbers, self.subnormals)),
                ('add', (self.whole_numbers, self.subnormals, self.large_sum)),
                ('sub', (self.whole_numbers, self.subnormals, self.large_sum)),
                ('mul', (self.whole_numbers, self.small_products, self.tied_products, self.tied_products, self.tied_products)),
                ('div', (self.whole_numbers, self.whole_quotients, self.small_products))):
            self.by_operation[NUMBER[name]] += recipes

    def whole_numbers(self):
        return [float(self.below(2001) - 1000) for _ in range(4)]

    def whole_quotients(self):
        """Dividends that are multiples of the divisor's far ends, so that both ends of the quotient are whole numbers."""
        near, far = sorted((self.below(1000) + 1, self.below(1000) + 1))
        least, most = self.below(1000) * far, self.below(1000000) * near
        signs = self.pick((1.0, -1.0)), self.pick((1.0, -1.0))
        return [signs[0] * least, signs[0] * most, signs[1] * near, signs[1] * far]

    def subnormals(self):
        """Numbers of any length below the smallest normal one."""
        return [self.pick((TINY, -TINY)) * self.bits(1 + self.below(52)) for _ in range(4)]

    def small_products(self):
        """Subnormal numbers with powers of two, by which some stay whole multiples of the smallest double."""
        powers = [self.pick((1.0, -1.0)) * ldexp(1, self.below(21) - 10) for _ in range(2)]
        return [*self.subnormals()[:2], *powers]

    def tied_products(self):
        """Operands about zero, whose two products on one side are equal or so near that they often round to one double.

        The significands are the same, so that some units more in one factor and as many less in the other nearly cancel out.
        With few digits the greater product is exact.
        """
        size = 1 + ldexp(self.bits(25), -25) if self.bits(1) else self.significand()
        first, second = (ldexp(size, self.below(1060) - 540) for _ in range(2))
        units = self.bits(2)
        ends = [-first, first + units * ulp(first), -second, second - units * ulp(second)]
        for pair in self.pick(((), (0,), (2,), (0, 2))):
            ends[pair:pair + 2] = -ends[pair], -ends[pair + 1]
        return ends if self.bits(1) else ends[2:] + ends[:2]


class Generator(request_lists.Generator):
    """Requests for exact ends, drawn with one seed."""

    # Negation is always exact, so the others come more often.
    numbers = ARITHMETIC[:1] + 3 * ARITHMETIC[1:]

    def __init__(self, seed):
        super().__init__('bare', seed)
        self.recipes = ExactRecipes(self.rng)

    def spoilt(self, request):
        """A request that is spoilt as the oracle's are, or with the number of another operation."""
        if self.bits(1):
            return super().spoilt(request)
        return bytes([self.pick((*OTHER_NUMBERS, self.bits(8)))]) + request[1:]


def all_pairs():
    """All pairs of the intervals with edge ends, in every operation."""
    given = all_operands(DECORATED_ENDS, False)
    return [bytes([number]) + x + y for number in ARITHMETIC for x in given for y in given]


EMPTY, ENTIRE = (inf, -inf), (-inf, inf)
THIRD = 1 / 3
ABOVE_ONE, BELOW_TWO, ABOVE_TWO = 1 + ldexp(1, -52), 2 - ldexp(1, -51), 2 + ldexp(1, -51)
SMALL = ldexp(1, -60)

# The operation, the operands, the answer, and which of its ends are exact.
CASES = (
    ('neg', (1, inf), EMPTY, (-inf, -1), (1, 1)),
    ('add', (LARGEST, LARGEST), (LARGEST, LARGEST), (LARGEST, inf), (0, 0)),
    ('add', (-LARGEST, 1), (-LARGEST, 1), (-inf, 2), (0, 1)),
    ('add', (1, 2), (SMALL, SMALL), (1, ABOVE_TWO), (0, 0)),
    ('add', EMPTY, (1, 2), EMPTY, (1, 1)),
    ('sub', (1, inf), (LARGEST, inf), ENTIRE, (1, 1)),
    ('mul', (0, 0), ENTIRE, (0, 0), (1, 1)),
    ('mul', (TINY, TINY), (TINY, TINY), (0, TINY), (0, 0)),
    ('mul', (LARGEST, inf), (2, 2), (LARGEST, inf), (0, 1)),
    ('mul', (-1, ABOVE_ONE), (-2, BELOW_TWO), (-ABOVE_TWO, 2), (1, 1)),
    ('mul', (-1, ABOVE_ONE), (-BELOW_TWO, 2), (-2, ABOVE_TWO), (1, 1)),
    ('div', (1, 1), (3, 3), (THIRD, nextafter(THIRD, 1)), (0, 0)),
    ('div', (1, 1), (1, 3), (THIRD, 1), (0, 1)),
    ('div', (1, 1), (1, inf), (0, 1), (1, 1)),
    ('div', (1, 2), (0, 4), (0.25, inf), (1, 1)),
    ('div', (1, 1), (-1, 3), ENTIRE, (1, 1)),
    ('div', (LARGEST, LARGEST), (TINY, TINY), (LARGEST, inf), (0, 0)),
    ('div', (1, 2), (0, 0), EMPTY, (1, 1)),
)


def in_bytes(ends):
    return ENDS.pack(*ends) if ends == EMPTY else joined(*map(float, ends))


def cases():
    """The cases as requests, with the answers in full."""
    for name, first, second, ends, exact in CASES:
        yield bytes([NUMBER[name]]) + in_bytes(first) + in_bytes(second), bytes(2) + in_bytes(ends) + bytes(exact)
