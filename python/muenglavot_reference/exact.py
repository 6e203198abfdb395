"""Operations on intervals with exact ends, from document 01 and IEEE 1788-2015.

An interval is None if it is empty, otherwise a pair of ends, each a fraction or an
infinity. Where nothing else is said, the operands are not empty.
"""

from fractions import Fraction
from itertools import pairwise
from math import ceil, floor, inf
from operator import eq, ge, gt, le, lt, ne

from .doubles import up

HALF = Fraction(1, 2)


def upward(t):
    """The least double, or +inf, that is not below an end; +inf has none above it."""
    return t if t == inf else up(t)


def outward(x):
    """The narrowest interval with doubles for ends that holds x."""
    return None if x is None else (-upward(-x[0]), upward(x[1]))


def exact_ends(x, ends):
    """Whether each end is exact, if all results have the bounds x: it is their bound, or it
    is infinite and they have none. Both ends of EMPTY are exact."""
    return (True, True) if x is None else (x[0] == ends[0], x[1] == ends[1])


# Arithmetic: the ends of the hull of all results.

def times(p, q):
    """The product of two ends; 0 times anything is 0, as infinity is no member."""
    if p == 0 or q == 0:
        return Fraction(0)
    if abs(p) == inf or abs(q) == inf:
        return inf if (p > 0) == (q > 0) else -inf
    return p * q


def neg(x):
    return -x[1], -x[0]


def add(x, y):
    return (-inf if -inf in (x[0], y[0]) else x[0] + y[0],
            inf if inf in (x[1], y[1]) else x[1] + y[1])


def sub(x, y):
    return add(x, neg(y))


def mul(x, y):
    corners = [times(p, q) for p in x for q in y]
    return min(corners), max(corners)


def reciprocals(y):
    """The hull of 1/t for the positive t in y, which has some."""
    least, greatest = max(y[0], Fraction(0)), y[1]
    return (Fraction(0) if greatest == inf else 1 / greatest,
            inf if least == 0 else 1 / least)


def div(x, y):
    sides = []
    if y[1] > 0:
        sides.append(mul(x, reciprocals(y)))
    if y[0] < 0:
        sides.append(neg(mul(x, reciprocals(neg(y)))))
    return hull(*sides) if len(sides) == 2 else sides[0] if sides else None


# Sets, and the functions that are known by their values at the ends.

def hull(x, y):
    return min(x[0], y[0]), max(x[1], y[1])


def convex_hull(x, y):
    return hull(x, y) if x and y else x or y


def intersection(x, y):
    low, high = max(x[0], y[0]), min(x[1], y[1])
    return (low, high) if low <= high else None


def maximum(x, y):
    return max(x[0], y[0]), max(x[1], y[1])


def minimum(x, y):
    return min(x[0], y[0]), min(x[1], y[1])


def absolute(x):
    if x[0] >= 0:
        return x
    return neg(x) if x[1] <= 0 else (Fraction(0), max(-x[0], x[1]))


def half_away(t):
    """The closest whole number, the one further from zero if two are."""
    return floor(t + HALF) if t > 0 else ceil(t - HALF)


def sign_of(t):
    return (t > 0) - (t < 0)


def whole(function):
    """The interval function of a function to whole numbers that never falls."""
    def image(x):
        return tuple(t if abs(t) == inf else Fraction(function(t)) for t in x)
    return image


def sign(x):
    return tuple(Fraction(sign_of(t)) for t in x)


# The states of two intervals that are not empty, from number 3 on, by their ends.
# Exactly one of them holds.
STATES = (
    lambda a, b, c, d: b < c,                           # 3 Before
    lambda a, b, c, d: a < b and b == c and c < d,      # 4 Meets
    lambda a, b, c, d: a < c and c < b and b < d,       # 5 Overlaps
    lambda a, b, c, d: a == c and b < d,                # 6 Starts
    lambda a, b, c, d: c < a and b < d,                 # 7 ContainedBy
    lambda a, b, c, d: c < a and b == d,                # 8 Finishes
    lambda a, b, c, d: a == c and b == d,               # 9 Equals
    lambda a, b, c, d: a < c and b == d,                # 10 FinishedBy
    lambda a, b, c, d: a < c and d < b,                 # 11 Contains
    lambda a, b, c, d: a == c and d < b,                # 12 StartedBy
    lambda a, b, c, d: c < a and a < d and d < b,       # 13 OverlappedBy
    lambda a, b, c, d: c < d and a == d and a < b,      # 14 MetBy
    lambda a, b, c, d: d < a,                           # 15 After
)


def overlap(x, y):
    if x is None or y is None:
        return 0 if x is y else 1 if x is None else 2
    [state] = [n for n, holds in enumerate(STATES, 3) if holds(*x, *y)]
    return state


# Comparisons, by quantifiers over members.

def members(x, marks):
    """Members of x that stand for all where only their order among some marks counts: those
    at a mark, and one between each two neighbours, below all and above all."""
    marks = sorted(marks)
    between = [(s + t) / 2 for s, t in pairwise(marks)]
    return [t for t in (*marks, *between, marks[0] - 1, marks[-1] + 1) if x and x[0] <= t <= x[1]]


def every(x, quantifier, y, related):
    """Whether every member of x is related to any member of y, or to all.

    Moving a member changes nothing until it meets an end or the other member, so that a few
    stand for all. Zero is a mark too, since there may be no finite end."""
    marks = {Fraction(0), *(t for z in (x, y) if z for t in z if abs(t) != inf)}
    return all(quantifier(related(a, b) for b in members(y, marks | {a}))
               for a in members(x, marks))


# Each by its definition, which speaks of empty intervals too.
COMPARISONS = {
    'equal': lambda x, y: every(x, any, y, eq) and every(y, any, x, eq),
    'subset': lambda x, y: every(x, any, y, eq),
    'interior': lambda x, y: every(x, any, y, lt) and every(x, any, y, gt),
    'disjoint': lambda x, y: every(x, all, y, ne),
    'less': lambda x, y: every(x, any, y, le) and every(y, any, x, ge),
    'strict_less': lambda x, y: every(x, any, y, lt) and every(y, any, x, gt),
    'precedes': lambda x, y: every(x, all, y, le),
    'strict_precedes': lambda x, y: every(x, all, y, lt),
}
