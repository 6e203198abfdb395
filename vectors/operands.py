"""The kinds of operands that the cases are made of. Each kind draws one pair of magnitude patterns."""
from muenglavot_reference.document import NUMBER
from muenglavot_reference.doubles import INFINITY, LARGEST, POINT, SIGN

SUM, PRODUCT, QUOTIENT = NUMBER["add"], NUMBER["mul"], NUMBER["div"]
FRACTION = 52
UNIT = 1 << FRACTION
FIELDS = INFINITY >> FRACTION
DIGITS = FRACTION + 1
# The exponent field of 1, the greatest exponent of a significand, and the exponent of the first number past the largest.
ONE = 1023
TOP = FIELDS - 2
ABOVE = TOP + DIGITS

# Zero, the smallest and the largest numbers, the ends of the subnormal ones, and numbers about 1.
ENDS = [
    0, 1, 2, 3, UNIT - 2, UNIT - 1, UNIT, UNIT + 1, 2 * UNIT, 53 * UNIT, 54 * UNIT,
    (ONE - 53) * UNIT, (ONE - 1) * UNIT, ONE * UNIT - 1, ONE * UNIT, ONE * UNIT + 1, (ONE + 1) * UNIT,
    (ONE + 1) * UNIT + UNIT // 2, (ONE + 53) * UNIT, (FIELDS - 54) * UNIT, (FIELDS - 1) * UNIT,
    LARGEST - 1, LARGEST,
]


def within(pattern):
    """The nearest finite magnitude."""
    return max(0, min(pattern, LARGEST))


def pattern(field, fraction):
    return within((field << FRACTION) + fraction)


def field(rng, low=0, high=FIELDS - 1):
    return rng.randint(max(low, 0), min(high, FIELDS - 1))


def fraction(rng):
    """Random digits, few digits, or nearly all ones."""
    kind = rng.randrange(4)
    if kind == 0:
        return rng.getrandbits(rng.randint(1, FRACTION)) << 1 & (UNIT - 1)
    if kind == 1:
        return UNIT - 1 - rng.getrandbits(rng.randint(1, 8))
    return rng.getrandbits(FRACTION)


def nudge(rng):
    return rng.choice((-1, 0, 1))


def ends(rng):
    return rng.choice(ENDS), rng.choice(ENDS)


def near_ends(rng):
    return within(rng.choice(ENDS) + rng.randint(-3, 3)), pattern(field(rng), fraction(rng))


def any_exponents(rng):
    return pattern(field(rng), fraction(rng)), pattern(field(rng), fraction(rng))


def near_exponents(rng):
    f = field(rng)
    return pattern(f, fraction(rng)), pattern(field(rng, f - 70, f + 70), fraction(rng))


def subnormal(rng):
    return rng.getrandbits(rng.randint(1, FRACTION)), pattern(field(rng), fraction(rng))


# Sums.


def sum_halfway(rng):
    """Half a unit of the greater one, at most one unit of the smaller one away."""
    f = field(rng, FRACTION + 2)
    return pattern(f, fraction(rng)), within(((f - FRACTION - 1) << FRACTION) + nudge(rng))


def sum_cancels(rng):
    """Magnitudes that agree in their leading digits."""
    a = pattern(field(rng), fraction(rng))
    return a, within(a + rng.getrandbits(rng.randint(1, 54)) * rng.choice((-1, 1)))


def sum_cancels_below(rng):
    """The same among the least exponents, where subnormal numbers are left."""
    a = pattern(field(rng, 0, 54), fraction(rng))
    return a, within(a + rng.getrandbits(rng.randint(1, 54)) * rng.choice((-1, 1)))


def sum_at_guard(rng):
    """Exponents about as far apart as the digits of a significand or of a word."""
    f = field(rng, 80)
    apart = rng.choice((9, 10, 11, 12, 52, 53, 54, 55, 62, 63, 64, 65, 73, 74, 75, 76))
    return pattern(f, fraction(rng)), pattern(f - apart, fraction(rng))


def sum_far_apart(rng):
    return pattern(field(rng, 1100), fraction(rng)), pattern(field(rng, 0, 900), fraction(rng))


def sum_overflows(rng):
    return within(LARGEST - rng.getrandbits(rng.randint(1, 53))), pattern(field(rng, FIELDS - 56), fraction(rng))


# Products and quotients, from significands whose product has a given number of digits.


def odd(rng, digits):
    return rng.getrandbits(digits) | 1 | 1 << (digits - 1)


def encode(significand, exponent):
    """The magnitude of significand * 2^exponent smallest numbers, without digits that it does not hold."""
    excess = max(0, significand.bit_length() - DIGITS)
    significand, exponent = significand >> excess, exponent + excess
    spare = DIGITS - significand.bit_length()
    if exponent >= spare:
        return pattern(exponent - spare + 1, (significand << spare) - UNIT)
    return significand << exponent if exponent >= 0 else significand >> -exponent


def nudged(rng, a, b):
    """At most one of the two is moved, by one unit."""
    return (within(a + nudge(rng)), b) if rng.getrandbits(1) else (a, max(1, within(b + nudge(rng))))


def product_of(rng, digits, exponent):
    """Factors whose product is a number of so many digits times 2^exponent smallest numbers."""
    split = rng.randint(max(1, digits - DIGITS), min(digits - 1, DIGITS))
    total = exponent + POINT
    first = rng.randint(max(0, total - TOP), min(total, TOP))
    return nudged(rng, encode(odd(rng, split), first), encode(odd(rng, digits - split), total - first))


def product_halfway(rng):
    """53 digits are exact, 54 are halfway, and one unit either side of a factor is near to that."""
    return product_of(rng, rng.choice((53, 54, 54, 55)), rng.randint(0, 1990))


def product_below(rng):
    """Products among the subnormal numbers, exactly halfway at the exponent -1, and less than the smallest."""
    return product_of(rng, rng.randint(2, 60), rng.choice((-1, rng.randint(-62, 0))))


def product_overflows(rng):
    digits = rng.randint(50, 106)
    return product_of(rng, digits, ABOVE - digits + nudge(rng))


def product_vanishes(rng):
    return pattern(field(rng, 0, 500), fraction(rng)), pattern(field(rng, 0, 480), fraction(rng))


def quotient_of(rng, digits, divisor_digits, exponent):
    """A quotient of so many digits times 2^exponent smallest numbers, as near as the dividend's digits allow."""
    q, y = odd(rng, digits), odd(rng, divisor_digits)
    above = exponent - POINT
    low = rng.randint(max(0, -above), min(TOP, TOP - above))
    return nudged(rng, encode(q * y, low + above), encode(y, low))


def quotient_exact(rng):
    digits = rng.randint(1, FRACTION)
    return quotient_of(rng, digits, rng.randint(1, DIGITS - digits), rng.randint(0, 1990))


def quotient_halfway(rng):
    """54 digits of quotient. No dividend is long enough for that, so that it is only near to halfway."""
    return quotient_of(rng, DIGITS + 1, rng.randint(1, DIGITS), rng.randint(0, 1990))


def quotient_below(rng):
    """Quotients among the subnormal numbers, exactly halfway at the exponent -1, and less than the smallest."""
    digits = rng.randint(1, FRACTION)
    return quotient_of(rng, digits, rng.randint(1, DIGITS - digits), rng.choice((-1, rng.randint(-62, 0))))


def quotient_overflows(rng):
    digits = rng.randint(1, DIGITS + 1)
    return quotient_of(rng, digits, rng.randint(1, DIGITS), ABOVE - digits + nudge(rng))


def quotient_by_subnormal(rng):
    return pattern(field(rng, 0, 1100), fraction(rng)), max(1, rng.getrandbits(rng.randint(1, FRACTION)))


def quotient_least(rng):
    """Quotients next to a number of 53 digits: no dividend is nearer to that number times the divisor."""
    m = 0
    while m < UNIT:
        y, away = odd(rng, DIGITS), rng.choice((-1, 1))
        m = -away * pow(y, -1, 1 << DIGITS) % (1 << DIGITS)
    x = (m * y + away) >> DIGITS
    above = rng.randint(0, 1990) - POINT + DIGITS
    low = rng.randint(max(0, -above), min(TOP, TOP - above))
    return encode(x, low + above), encode(y, low)


def quotient_near_one(rng):
    a = pattern(field(rng), fraction(rng))
    return a, within(a + rng.randint(-40, 40))


SHARED = [ends, near_ends, any_exponents, near_exponents, subnormal]
KINDS = {
    SUM: SHARED + [sum_halfway, sum_cancels, sum_cancels_below, sum_at_guard, sum_far_apart, sum_overflows],
    PRODUCT: SHARED + [product_halfway, product_below, product_overflows, product_vanishes],
    QUOTIENT: SHARED + [quotient_exact, quotient_halfway, quotient_below, quotient_overflows, quotient_by_subnormal, quotient_least, quotient_near_one],
}


def operands(rng, operation):
    """Pairs of patterns, every kind as often as the others, in either order where that is the same, with any signs."""
    while True:
        for kind in KINDS[operation]:
            a, b = kind(rng)
            if operation != QUOTIENT and rng.getrandbits(1):
                a, b = b, a
            if operation == QUOTIENT and b == 0:
                b = 1
            yield a | SIGN * rng.getrandbits(1), b | SIGN * rng.getrandbits(1)
