"""Where the ends of generated requests come from: one recipe for each sort of trouble."""

import sys
from math import inf, ldexp, nextafter, ulp

from muenglavot_reference.document import COMPARISONS, NUMBER

LARGEST = sys.float_info.max
NORMAL = sys.float_info.min
TINY = ulp(0.0)


def both_signs(values):
    return [sign * value for value in values for sign in (1, -1)]


EDGES = both_signs((
    0.0, TINY, 2 * TINY, nextafter(NORMAL, 0), NORMAL, nextafter(NORMAL, 1), 2 * NORMAL,
    ldexp(1, -538), ldexp(1, -537), nextafter(0.5, 0), 0.5, nextafter(0.5, 1),
    nextafter(1.0, 0), 1.0, nextafter(1.0, 2), 1.5, 2.0, 3.0, 10.0, 1 / 3,
    ldexp(1, 52) - 0.5, ldexp(1, 52), ldexp(1, 53), ldexp(1, 53) - 1,
    ldexp(1, 511), ldexp(1, 512), LARGEST / 2, nextafter(LARGEST, 0), LARGEST, inf))


class Recipes:
    """Sources of four ends, two for each operand; the order in a pair is free."""

    def __init__(self, rng):
        self.random = rng.random
        self.bits = rng.getrandbits
        everywhere = (self.edges, self.anywhere, self.near, self.few_values, self.signs)
        sums = (self.halfway_sum, self.cancelling, self.large_sum)
        products = (self.scaled_product, self.short_product)
        quotients = (self.exact_quotient, self.nearest_quotient, self.scaled_quotient, self.small_halves,
                     self.divisor_at_zero, self.divisor_at_zero)
        wholes = (self.halves, self.halves, self.large_halves, self.near_one)
        orders = (self.few_values, self.neighbours, self.touching, self.same_ends, self.unbounded)
        self.by_operation = {number: everywhere for number in NUMBER.values()}
        for names, recipes in (
                (('add', 'sub'), sums),
                (('mul',), products + (self.small_halves,)),
                (('div',), quotients),
                (('ceil', 'floor', 'round', 'round_ties_even', 'sign', 'trunc'), wholes),
                (('overlap', 'intersection', 'convex_hull', 'max', 'min'),
                 (self.few_values, self.few_values, self.halves))):
            for name in names:
                self.by_operation[NUMBER[name]] = everywhere + recipes
        self.by_operation.update(dict.fromkeys(COMPARISONS, everywhere + orders))

    def pick(self, values):
        return values[int(self.random() * len(values))]

    def below(self, limit):
        return int(self.random() * limit)

    def significand(self):
        """A double from 1 to 2: with random digits, few digits, or nearly 2 or 1."""
        way = self.bits(2)
        if way < 2:
            return 1 + ldexp(self.bits(52), -52)
        if way == 2:
            return 1 + ldexp(self.bits(4), -self.below(49) - 4)
        return 2 - ldexp(self.bits(3) + 1, -52)

    def double(self, exponent):
        """A double of either sign with about this exponent."""
        size = ldexp(self.significand(), min(exponent, 1023))
        return size if self.bits(1) else -size

    def nudged(self, value):
        """The value, or one a unit or two off."""
        steps = self.bits(3)
        if steps > 3 or abs(value) == inf:
            return value
        toward = inf if steps & 1 else -inf
        value = nextafter(value, toward)
        return nextafter(value, toward) if steps & 2 else value

    def edges(self):
        return [self.pick(EDGES) for _ in range(4)]

    def anywhere(self):
        return [self.double(self.below(2098) - 1074) for _ in range(4)]

    def near(self):
        middle = self.below(2098) - 1074
        return [self.double(middle + self.below(121) - 60) for _ in range(4)]

    def few_values(self):
        """Ends from two or three values, so that many are equal."""
        values = (self.pick(EDGES), self.pick(EDGES), self.double(self.below(8) - 4))
        return [self.pick(values) for _ in range(4)]

    def signs(self):
        """Ends below, at and above zero, so that all classes meet."""
        size = abs(self.pick(EDGES))
        return [self.pick((-size, 0.0, 0.0, size, 1.0, -1.0)) for _ in range(4)]

    def neighbours(self):
        """Ends that are equal or a few units apart."""
        middle = self.pick(self.edges() + self.anywhere())
        return [self.nudged(middle) for _ in range(4)]

    def touching(self):
        """One operand that ends where the other begins, or a unit or two off."""
        first, middle, last = sorted(self.pick((self.edges, self.near))()[:3])
        ends = [first, middle, self.nudged(middle), last]
        return ends if self.bits(1) else ends[2:] + ends[:2]

    def same_ends(self):
        """Two operands with the same ends, or with ends a unit or two off."""
        a, b = self.pick((self.edges, self.near))()[:2]
        return [a, b, self.nudged(a), self.nudged(b)]

    def unbounded(self):
        """The same, with no bound on a side of one operand or both."""
        a, b, c, d = self.same_ends()
        return self.pick((
            [-inf, b, -inf, d], [a, inf, c, inf], [-inf, inf, c, inf], [a, b, -inf, d],
            [-inf, b, c, inf], [a, inf, -inf, inf]))

    def halfway_sum(self):
        """A second operand of some units and a half in the first one's last place."""
        first = self.double(self.below(2040) - 1020)
        unit = ulp(first)
        half = unit * (self.bits(3) - 3.5)
        return [first, self.nudged(first), self.nudged(half), self.nudged(half)]

    def cancelling(self):
        first = self.double(self.below(2098) - 1074)
        other = first if self.bits(1) else -first
        return [first, self.nudged(first), self.nudged(other), self.nudged(other)]

    def large_sum(self):
        """Sums about the largest double and half a unit beyond it."""
        part = self.pick((LARGEST, LARGEST / 2, ulp(LARGEST) / 2, ulp(LARGEST)))
        values = (LARGEST, self.nudged(-LARGEST), self.nudged(part), self.nudged(-part))
        return [min(max(self.pick(values), -LARGEST), LARGEST) for _ in range(4)]

    def scaled_product(self):
        """Products about the top and the bottom of the doubles."""
        first = self.below(1100) - 550
        target = self.pick((1023, 1022, -1022, -1074, -1075))
        second = target - first
        return [self.double(first), self.double(first + self.bits(1)),
                self.double(second), self.double(second - self.bits(1))]

    def scaled_quotient(self):
        a, b, c, d = self.scaled_product()
        return [a, b, 1 / c if c else 1.0, 1 / d if d else 1.0]

    def short_product(self):
        """Significands of 26 to 28 digits: exact products, halfway, one unit off."""
        scale = self.below(200) - 100
        ends = [ldexp(self.bits(26 + self.below(3)) | 1, scale) for _ in range(4)]
        if self.bits(1):
            ends = map(self.nudged, ends)
        return [end if self.bits(1) else -end for end in ends]

    def exact_quotient(self):
        """A multiple of the divisor, or one unit off."""
        divisor = float(self.bits(26) + 1)
        first = divisor * (self.bits(26) - (1 << 25))
        return [self.nudged(first), first, divisor, self.nudged(divisor)]

    def nearest_quotient(self):
        """A quotient as near to a double as any is that is none."""
        m = 0
        while m < 1 << 52:
            divisor, away = self.bits(53) | 1 << 52 | 1, self.pick((-1, 1))
            m = -away * pow(divisor, -1, 1 << 53) % (1 << 53)
        first = ldexp((m * divisor + away) >> 53, self.below(900) - 450)
        second = ldexp(divisor, self.below(900) - 450)
        if self.bits(1):
            first = -first
        return [first, self.nudged(first), second, second]

    def small_halves(self):
        """Halves and thirds of the smallest double, as products and quotients."""
        ends = [TINY * (self.bits(6) - 32) for _ in range(2)]
        by = [self.pick((0.25, 0.5, 1.5, 2.0, 3.0, 4.0)) for _ in range(2)]
        return ends + (by if self.bits(1) else [-by[0], by[1]])

    def divisor_at_zero(self):
        first = self.pick((self.edges, self.near, self.halves))()
        tip = self.pick((TINY, NORMAL, 1.0, 3.0, LARGEST, inf, self.double(self.below(60))))
        return [*first[:2], *self.pick(((0.0, tip), (0.0, -tip), (-tip, tip), (0.0, 0.0)))]

    def halves(self):
        return [self.nudged((self.bits(4) - 8) / 2) for _ in range(4)]

    def large_halves(self):
        """Numbers about 2^51 to 2^54, where halves and then odd numbers end."""
        base = ldexp(1, 51 + self.bits(2))
        ends = [base + (self.bits(4) - 8) / 2 for _ in range(4)]
        return [-end for end in ends] if self.bits(1) else ends

    def near_one(self):
        """A narrow interval, so that rounding often leaves one point."""
        first = self.nudged((self.bits(3) - 4) / 2)
        second = self.nudged(first + self.pick((0.0, 0.25, 0.5, -0.25, 1.0)))
        return [first, second, second, first]
