"""Lists of requests: drawn with a seed, and exhaustive.

The first goes round the operations 1 to 25. Its ends come from recipes that each seek
out one sort of trouble; some operands and requests are then spoilt. The second takes
all pairs of intervals with ends from a fixed set.
"""

import random
from math import inf, ldexp, nextafter

from muenglavot_reference.document import (
    COM, DAC, DECORATIONS, DEF, EMPTY, ENDS, ENTIRE, ILL, NAI, NAI_ENDS, NUMBER, ONE_OPERAND,
    OPERAND, PATTERNS, QUIET, TRV)
from muenglavot_reference.doubles import INFINITY, SIGN
from recipes import LARGEST, NORMAL, TINY, Recipes, both_signs

# NaNs that are not NaI's: with the sign set, with another payload, the least and the greatest.
OTHER_NANS = (QUIET | SIGN, QUIET + 1, INFINITY + 1, 2 ** 64 - 1)
# How many bits of a payload lie below the one that makes a NaN quiet.
PAYLOAD = 51
# Numbers that no operation has: before the first, behind the last, and the greatest.
NO_OPERATIONS = (0, len(NUMBER) + 1, len(NUMBER) + 2, 255)


def joined(a, b):
    """The bytes of the proper pair of two ends given in any order."""
    if a > b:
        a, b = b, a
    if a == inf:
        a = LARGEST
    if b == -inf:
        b = -LARGEST
    return ENDS.pack(a or -0.0, b or 0.0)


class Generator:
    """Requests of one kind, drawn with one seed."""

    # The operations that they go round.
    numbers = tuple(NUMBER.values())
    # How many operands get ends that are rare, or that are refused.
    odd_share = 0.11

    def __init__(self, kind, seed):
        self.rng = random.Random(seed)
        self.random = self.rng.random
        self.bits = self.rng.getrandbits
        self.decorated = kind == 'decorated'
        self.recipes = Recipes(self.rng)

    def pick(self, values):
        return values[int(self.random() * len(values))]

    def other_nan(self):
        """A NaN that is not NaI's: a plain one, one bit off, or of any sign and payload."""
        way = self.bits(2)
        if way < 2:
            return self.pick(OTHER_NANS)
        if way == 2:
            return QUIET ^ 1 << int(self.random() * PAYLOAD)
        return self.pick((0, SIGN)) | INFINITY | (self.bits(PAYLOAD + 1) or 1)

    def other_nans(self):
        """Two NaNs of which one or both are not NaI's."""
        a, b = self.other_nan(), self.other_nan()
        return PATTERNS.pack(*self.pick(((QUIET, b), (a, QUIET), (a, a), (a, b))))

    def odd_ends(self, ends):
        """Ends that are rare, or that are refused."""
        way = int(self.random() * 15)
        a, b = ENDS.unpack(ends)
        if way < 3:
            return EMPTY
        if way < 4:
            return ENTIRE
        if way < 7:
            return NAI_ENDS
        if way < 10:
            return self.other_nans()
        if way == 10:
            return ENDS.pack(b, a)
        if way == 11:
            return ENDS.pack(0.0, abs(b)) if self.bits(1) else ENDS.pack(-abs(a), -0.0)
        if way == 12:
            return ENDS.pack(inf, inf) if self.bits(1) else ENDS.pack(-inf, -inf)
        half = self.pick((QUIET, self.other_nan())).to_bytes(8, 'big')
        return ends[:8] + half if way == 13 else half + ends[8:]

    def decoration(self, ends):
        """A decoration that suits the ends, now and then one that does not."""
        chance = self.random()
        if chance < 0.04:
            return self.pick(DECORATIONS)
        if chance < 0.05:
            return self.bits(8)
        a, b = ENDS.unpack(ends)
        if a != a and b != b:
            return ILL
        if a == inf and b == -inf:
            return TRV
        if -inf < a and b < inf:
            return COM if chance < 0.6 else self.pick((TRV, DEF, DAC))
        return self.pick((TRV, DEF, DAC))

    def operand(self, a, b):
        if self.bits(3) == 0:
            b = a
        ends = joined(a, b)
        if self.random() < self.odd_share:
            ends = self.odd_ends(ends)
        return ends + bytes([self.decoration(ends)]) if self.decorated else ends

    def request(self, operation):
        a, b, c, d = self.pick(self.recipes.by_operation[operation])()
        return bytes([operation]) + self.operand(a, b) + self.operand(c, d)

    def spoilt(self, request):
        """A request with a bit turned, another operation number, or of chance bytes."""
        way = self.bits(3)
        if way == 0:
            return bytes([self.pick((*NO_OPERATIONS, self.bits(8)))]) + request[1:]
        if way == 1:
            return request[:1] + self.rng.randbytes(len(request) - 1)
        damaged = bytearray(request)
        damaged[int(self.random() * len(request))] ^= 1 << self.bits(3)
        return bytes(damaged)

    def requests(self, count):
        for index in range(count):
            request = self.request(self.numbers[index % len(self.numbers)])
            yield self.spoilt(request) if self.random() < 0.04 else request


# The ends of the exhaustive lists. All seven classes arise from either set.
BARE_ENDS = sorted(set(both_signs((
    0.0, TINY, NORMAL, 0.5, nextafter(1.0, 0), 1.0, nextafter(1.0, 2), 3.0,
    ldexp(1, 53), nextafter(LARGEST, 0), LARGEST, inf))))
DECORATED_ENDS = sorted(set(both_signs((0.0, TINY, 1.0, nextafter(1.0, 2), LARGEST, inf))))
# The integer functions take one operand, so more ends can be had.
WHOLE_ENDS = sorted(set(both_signs(
    [step / 4 for step in range(13)]
    + [nextafter(step / 2, way) for step in range(1, 6) for way in (-inf, inf)]
    + [TINY, NORMAL, ldexp(1, 52) - 0.5, ldexp(1, 52), ldexp(1, 53), LARGEST, inf])))


def all_operands(ends, decorated):
    """All intervals with these ends, with every decoration that suits them."""
    found = []
    for a in ends:
        for b in ends:
            if a <= b and a != inf and b != -inf:
                bounded = -inf < a and b < inf
                for decoration in (TRV, DEF, DAC, COM) if bounded else (TRV, DEF, DAC):
                    found.append(joined(a, b) + bytes([decoration]))
    found.append(EMPTY + bytes([TRV]))
    if decorated:
        found.append(NAI)
        return found
    return list(dict.fromkeys(operand[:16] for operand in found))


def exhaustive(kind, only=None):
    """The exhaustive list, or its requests for some operations only."""
    decorated = kind == 'decorated'
    pairs_of = all_operands(DECORATED_ENDS if decorated else BARE_ENDS, decorated)
    singles = all_operands(WHOLE_ENDS, decorated)
    # The second operand is not read, so it may be anything.
    unread = b'\xff' * OPERAND[kind]
    for number in only or NUMBER.values():
        operation = bytes([number])
        if number in ONE_OPERAND:
            for x in singles:
                yield operation + x + unread
        else:
            for x in pairs_of:
                for y in pairs_of:
                    yield operation + x + y
