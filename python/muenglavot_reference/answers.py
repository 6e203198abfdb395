"""Answers to requests, in exact fractions."""

from fractions import Fraction
from math import ceil, floor, inf, trunc

from . import exact
from .document import (
    ARITHMETIC, COM, DAC, DEF, EMPTY, ENDS, ILL, NAI, NUMBER, OPERAND, OPERATIONS, REQUEST, TRV,
    operands_read, refusal, refused)

NAI_OVERLAP = 16
NO = 0

# The operations that answer one byte, a state or 1 for yes and 0 for no, by their numbers:
# on any intervals, and what NaI gets.
ONE_BYTE = {NUMBER['overlap']: (exact.overlap, NAI_OVERLAP)} | {
    NUMBER[name]: (holds, NO) for name, holds in exact.COMPARISONS.items()}

# An operation on intervals that are not empty, by its number.
FUNCTIONS = {NUMBER[name]: function for name, function in {
    'neg': exact.neg, 'add': exact.add, 'sub': exact.sub, 'mul': exact.mul,
    'div': exact.div, 'intersection': exact.intersection, 'max': exact.maximum,
    'min': exact.minimum, 'abs': exact.absolute, 'ceil': exact.whole(ceil),
    'floor': exact.whole(floor), 'round': exact.whole(exact.half_away),
    'round_ties_even': exact.whole(round), 'sign': exact.sign,
    'trunc': exact.whole(trunc)}.items()}


def bounds(operation, *given):
    """The true bounds of all results, where these are numbers; None if there is none."""
    if operation == NUMBER['convex_hull']:
        return exact.convex_hull(*given)
    if None in given:
        return None
    return FUNCTIONS[operation](*given)


def bare_result(operation, *given):
    """The result of an operation to numbers, as an interval of doubles."""
    return exact.outward(bounds(operation, *given))


# Decorations.

def set_dec(x, decoration):
    """The interval's decoration once it is made to fit."""
    if x is None:
        return TRV
    if decoration == COM and inf in (-x[0], x[1]):
        return DAC
    return decoration


def fraction_is_half(t):
    return t - floor(t) == exact.HALF


# The tests of the integer functions: x is the operand, y its result of one point.
JUMPS = {NUMBER[name]: jump for name, jump in {
    'ceil': lambda x, y: x[1] == y[1],
    'floor': lambda x, y: x[0] == y[0],
    'round': lambda x, y: any(map(fraction_is_half, x)),
    'round_ties_even': lambda x, y: any(map(fraction_is_half, x)),
    'sign': lambda x, y: x[0] == 0,
    'trunc': lambda x, y: x[0] == y[0] or x[1] == y[1]}.items()}


def decoration_of(operation, given, decorations, result):
    """The result's decoration, if no operand is NaI."""
    if OPERATIONS[operation - 1] in ('convex_hull', 'intersection'):
        return TRV
    least = min(decorations)
    if operation == NUMBER['div'] and given[1] and given[1][0] <= 0 <= given[1][1]:
        least = TRV
    if operation in JUMPS:
        if result is None:
            own = TRV
        elif result[0] != result[1]:
            own = DEF
        else:
            own = DAC if JUMPS[operation](given[0], result) else COM
        least = min(least, own)
    return set_dec(result, least)


# Bytes.

def read(operand):
    """The interval that accepted bytes stand for, NaI apart."""
    ends = ENDS.unpack_from(operand)
    if ends == (inf, -inf):
        return None
    return tuple(t if abs(t) == inf else Fraction(t) for t in ends)


def write(x):
    if x is None:
        return EMPTY
    return ENDS.pack(x[0] if x[0] else -0.0, x[1] if x[1] else 0.0)


def result(operation, *given):
    """The bytes that an operation answers to accepted operands, of either kind."""
    decorations = [operand[16] for operand in given if len(operand) == OPERAND['decorated']]
    if operation in ONE_BYTE:
        function, of_nai = ONE_BYTE[operation]
        return bytes([of_nai if ILL in decorations else function(*map(read, given))])
    if ILL in decorations:
        return NAI
    exact_given = [read(operand) for operand in given]
    found = bare_result(operation, *exact_given)
    if not decorations:
        return write(found)
    return write(found) + bytes([decoration_of(operation, exact_given, decorations, found)])


def exact_result(operation, *given):
    """The bytes that an arithmetic operation answers to accepted bare operands, with a byte
    for each end that says whether it is exact."""
    found = bounds(operation, *map(read, given))
    ends = exact.outward(found)
    return write(ends) + bytes(exact.exact_ends(found, ends))


def answer(request):
    """The answer to one request, of either kind."""
    kind = 'bare' if len(request) == REQUEST['bare'] else 'decorated'
    number, place = refusal(request)
    if number:
        return refused(kind, number, place)
    return bytes(2) + result(request[0], *operands_read(request)).ljust(OPERAND[kind], b'\0')


def exact_answer(request):
    """The answer to one bare request for an arithmetic operation, with exact ends."""
    number, place = refusal(request, ARITHMETIC)
    if number:
        return refused('exact', number, place)
    return bytes(2) + exact_result(request[0], *operands_read(request))
