"""Doubles, and upward rounding by its definition, in whole numbers.

A double is told by its place in the order of doubles: 0 is zero, 1 the smallest positive
number, -1 its negative, and INFINITY is +inf. What a place is worth is a whole number of
2^-1074.
"""

from struct import Struct

PATTERN = Struct('>Q')
DOUBLE = Struct('>d')

SIGN = 1 << 63
INFINITY = 0x7FF0000000000000
LARGEST = INFINITY - 1
POINT = 1074


def magnitude(place):
    """What a place that is not negative is worth."""
    field, fraction = place >> 52, place & ((1 << 52) - 1)
    return fraction if field == 0 else ((1 << 52) + fraction) << (field - 1)


def worth(place):
    return magnitude(place) if place >= 0 else -magnitude(-place)


def place_of(pattern):
    return pattern if pattern < SIGN else -(pattern - SIGN)


def pattern_of(place):
    return place if place >= 0 else SIGN - place


def guess(over, under):
    """A place near over / under. The definition below mends it where it is not the answer."""
    try:
        near = abs(over) / (under << POINT)
    except OverflowError:
        return LARGEST if over > 0 else -LARGEST
    [pattern] = PATTERN.unpack(DOUBLE.pack(near))
    place = min(pattern, LARGEST)
    return place if over > 0 else -place


def round_up(over, under):
    """The least place whose worth is not below over / under, with under > 0."""
    place = guess(over, under)
    while place < INFINITY and worth(place) * under < over:
        place += 1
    while place > -LARGEST and worth(place - 1) * under >= over:
        place -= 1
    return place


def up(value):
    """The least double, or +inf, that is not below a fraction."""
    place = round_up(value.numerator << POINT, value.denominator)
    return DOUBLE.unpack(PATTERN.pack(pattern_of(place)))[0]
