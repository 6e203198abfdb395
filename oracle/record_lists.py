"""Lists of records of calls by value: drawn with a seed, and exhaustive.

The first goes round all functions, on the operands of requests, with zeros of either sign
and with more that is refused. The second takes every pair of a fixed set of ends with
every decoration, and every pair of a fixed set of operands, most of them refused.
"""

from math import inf, nan
from struct import pack

import request_lists
from muenglavot_reference.document import (
    COM, DAC, DECORATIONS, DEF, ENDS, ILL, PATTERNS, QUIET, TRV, operands)
from muenglavot_reference.values import FUNCTIONS
from recipes import LARGEST, TINY, both_signs

ZEROS = pack('>d', 0.0), pack('>d', -0.0)
# A byte that is no decoration's.
NO_DECORATION = 5
# What is not taken may be anything.
UNREAD = b'\xff'


class Generator(request_lists.Generator):
    """Records drawn with one seed."""

    odd_share = 0.25

    def __init__(self, seed):
        super().__init__('decorated', seed)

    def decoration(self, ends):
        return self.pick(DECORATIONS) if self.random() < 0.1 else super().decoration(ends)

    def zeros_of_any_sign(self, operand):
        ends = (self.pick(ZEROS) if end in ZEROS else end for end in (operand[:8], operand[8:16]))
        return b''.join(ends) + operand[16:]

    def record(self, number):
        function = FUNCTIONS[number]
        request = self.request(function.operation or self.pick(self.numbers))
        given = [self.zeros_of_any_sign(operand) for operand in operands(request)]
        for place, way in enumerate(function.takes):
            given[place] = way.in_order(given[place])
        return bytes([number]) + b''.join(given)

    def records(self, count):
        numbers = list(FUNCTIONS)
        for index in range(count):
            record = self.record(numbers[index % len(numbers)])
            yield self.spoilt(record) if self.random() < 0.04 else record


# Both zeros, the smallest, one, the largest, both infinities, NaI's NaN and others, as patterns.
ALL_ENDS = [pack('>d', end) for end in both_signs((0.0, TINY, 1.0, LARGEST, inf))] + [
    pack('>Q', end) for end in (QUIET, *request_lists.OTHER_NANS)]

# Pairs of ends with what is to be tried behind them: accepted, and refused in every way.
PAIRS = (
    ((1.0, 2.0), (COM, TRV, ILL, NO_DECORATION)), ((-3.0, 4.0), (DEF,)), ((0.0, -0.0), (COM, ILL)),
    ((-0.0, 0.0), (DAC,)), ((0.0, 1.0), (COM,)), ((-1.0, -0.0), (COM,)),
    ((1.0, inf), (DAC, COM)), ((-inf, 1.0), (DEF, COM)), ((-inf, inf), (DAC, COM, ILL)),
    ((inf, -inf), DECORATIONS), ((nan, 1.0), (TRV,)), ((1.0, nan), (ILL,)), ((inf, inf), (TRV,)),
    ((-inf, -inf), (DAC,)), ((2.0, 1.0), (COM,)))
# The same for pairs of NaNs: NaI's, and others in one end or in both.
SIGNED, NEXT, LEAST, GREATEST = request_lists.OTHER_NANS
NAN_PAIRS = (
    ((QUIET, QUIET), (*DECORATIONS, NO_DECORATION)), ((SIGNED, SIGNED), (ILL, TRV, NO_DECORATION)),
    ((QUIET, NEXT), (ILL,)), ((LEAST, QUIET), (ILL,)), ((GREATEST, LEAST), (ILL,)))
MIXED = [form.pack(*ends) + bytes([decoration])
         for form, pairs in ((ENDS, PAIRS), (PATTERNS, NAN_PAIRS))
         for ends, decorations in pairs for decoration in decorations]


def taken_operands(way, all_operands):
    """The operands that differ in what is taken of them, the rest as anything."""
    if way.kind == 'decorated' or way.decoration:
        return [way.in_order(operand) for operand in all_operands]
    return list(dict.fromkeys(way.in_order(operand)[:16] + UNREAD for operand in all_operands))


def exhaustive(only=None):
    """The exhaustive list, or its records for some operations only."""
    singles = [a + b + bytes([decoration]) for a in ALL_ENDS for b in ALL_ENDS
               for decoration in (*DECORATIONS, NO_DECORATION)]
    for number, function in FUNCTIONS.items():
        if only and function.operation not in only:
            continue
        firsts = seconds = [UNREAD * 17]
        if len(function.takes) == 1:
            firsts = taken_operands(function.takes[0], singles)
        if len(function.takes) == 2:
            firsts, seconds = (taken_operands(way, MIXED) for way in function.takes)
        for first in firsts:
            for second in seconds:
                yield bytes([number]) + first + second
