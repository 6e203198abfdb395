"""The functions that take intervals by value: their numbers, what they refuse and answer.

Where document 01 leaves a function to the crate, it is written from the crate's comments. A
record is a function's number and two operands, in the form of a decorated request;
crates/value_run/src/main.rt has the numbers.
"""

from functools import partial
from math import inf
from typing import Callable, NamedTuple

from . import answers
from .document import (
    ARITHMETIC, COM, DECORATIONS, EMPTY, ENTIRE, ILL, NAI, NUMBER, ONE_OPERAND, OPERAND, OPERATIONS,
    REQUEST, TRV, operand_refusal, operands, refused, turned)

RECORD = REQUEST['decorated']
# The answer where NaI has no interval part: zero bytes, and one that is no decoration's.
MISSING = bytes(16) + b'\xff'


class Taken(NamedTuple):
    """What a function takes of an operand."""
    kind: str
    # Whether an interval is passed, and not its bytes.
    by_value: bool = True
    # Whether a decoration is passed, which can only be one of the five.
    decoration: bool = False
    little_endian: bool = False

    def in_order(self, interval):
        """An interval's bytes in the byte order that is taken, or back."""
        return turned(interval) if self.little_endian else interval

    def judged(self, operand):
        """The operand's bytes that are judged, in big endian."""
        return self.in_order(operand)[:OPERAND[self.kind]]


BARE = Taken('bare')
BARE_AND_DECORATION = Taken('bare', decoration=True)
DECORATED = Taken('decorated', decoration=True)
BARE_BYTES = Taken('bare', by_value=False)
BARE_BYTES_LITTLE = Taken('bare', by_value=False, little_endian=True)
DECORATED_BYTES = Taken('decorated', by_value=False)
DECORATED_BYTES_LITTLE = Taken('decorated', by_value=False, little_endian=True)


class Function(NamedTuple):
    name: str
    # What is taken of the first operand, and of the second.
    takes: tuple
    # The answer's bytes, from all that is taken, which was accepted.
    answer: Callable
    # The number of the operation, where it is one.
    operation: int = 0


# Answers about one interval.

def is_nai(x):
    return x == NAI


def handed_back(x):
    """The same interval, with its zeros as the bytes have them."""
    return x if is_nai(x) else answers.write(answers.read(x)) + x[16:]


def set_dec(x, decoration):
    """An interval with a decoration, as document 01's module 1 says."""
    exact = answers.read(x)
    if decoration == ILL:
        return NAI
    return answers.write(exact) + bytes([answers.set_dec(exact, decoration)])


def new(x):
    return set_dec(x, COM)


# The class of an interval that is not empty, by the table in classify.rs: one of them holds.
CLASSES = {
    'M': lambda a, b: a < 0 < b,
    'N0': lambda a, b: a < 0 and b == 0,
    'N1': lambda a, b: b < 0,
    'P0': lambda a, b: a == 0 and 0 < b,
    'P1': lambda a, b: 0 < a,
    'Z': lambda a, b: a == b == 0,
}


def class_number(x):
    """The place of a class in the order declared, which E begins."""
    exact = answers.read(x)
    if exact is None:
        return bytes([0])
    [number] = [n for n, holds in enumerate(CLASSES.values(), 1) if holds(*exact)]
    return bytes([number])


# What is asked of an interval's set. NaI has none, and the answer is no.
QUESTIONS = {
    'is_empty': lambda x: x is None,
    'is_entire': lambda x: x == (-inf, inf),
    'is_common_interval': lambda x: x is not None and -inf < x[0] and x[1] < inf,
    'is_singleton': lambda x: x is not None and x[0] == x[1],
}


def asking(question):
    def answer(x):
        return bytes([not is_nai(x) and question(answers.read(x))])
    return answer


def functions(owner, takes):
    """Those that bare and decorated intervals share."""
    yield f'{owner}::inf', takes, lambda x: handed_back(x)[:8]
    yield f'{owner}::sup', takes, lambda x: handed_back(x)[8:16]
    for name, question in QUESTIONS.items():
        yield f'{owner}::{name}', takes, asking(question)


def codec(module, takes):
    yield f'{module}::to_be_bytes', takes, handed_back
    yield f'{module}::to_le_bytes', takes, lambda x: turned(handed_back(x))


def exact_ends(operation, *given):
    """An arithmetic operation's answer, and behind it 1 for an exact lower end and 2 for an
    exact upper end, added up."""
    found = answers.exact_result(operation, *given)
    lower, upper = found[16:]
    return found[:16] + bytes([lower + 2 * upper])


BARE_FUNCTIONS = (
    ('Interval::try_from', BARE, handed_back),
    *functions('Interval', BARE),
    ('Interval::classify', BARE, class_number),
    ('DecInterval::new', BARE, new),
    ('DecInterval::set_dec', BARE_AND_DECORATION, set_dec),
    *codec('bare', BARE))
DECORATED_FUNCTIONS = (
    ('DecInterval::try_from', BARE, new),
    *functions('DecInterval', DECORATED),
    ('DecInterval::is_nai', DECORATED, lambda x: bytes([is_nai(x)])),
    ('DecInterval::interval', DECORATED, lambda x: MISSING if is_nai(x) else handed_back(x)[:16]),
    ('DecInterval::decoration', DECORATED, lambda x: x[16:]),
    ('DecInterval::try_from_parts', DECORATED, handed_back),
    *codec('decorated', DECORATED))
FROM_BYTES = (
    ('bare::try_from_be_bytes', BARE_BYTES, handed_back),
    ('bare::try_from_le_bytes', BARE_BYTES_LITTLE, handed_back),
    ('decorated::try_from_be_bytes', DECORATED_BYTES, handed_back),
    ('decorated::try_from_le_bytes', DECORATED_BYTES_LITTLE, handed_back))
CONSTANTS = {
    'Interval::EMPTY': EMPTY, 'Interval::ENTIRE': ENTIRE,
    'DecInterval::EMPTY': EMPTY + bytes([TRV]), 'DecInterval::NAI': NAI}


# Where the numbers of the operations start: each by its own function, then by its name.
OPERATION_NUMBERS = (
    (0, DECORATED, 'decorated {}'), (32, BARE, '{}'),
    (160, DECORATED, 'decorated {} by name'), (192, BARE, '{} by name'))
# Where those of the arithmetic operations start that report exact ends.
EXACT_NUMBERS = 224
# Where the numbers of the other functions start, in their order.
FUNCTION_NUMBERS = ((64, BARE_FUNCTIONS), (96, DECORATED_FUNCTIONS), (128, FROM_BYTES))
CONSTANT_NUMBERS = 128 + len(FROM_BYTES)


def numbered():
    """Every function with its number."""
    for first, takes, name in OPERATION_NUMBERS:
        for operation, number in NUMBER.items():
            yield first + number, Function(
                name.format(operation), (takes,) * (1 if number in ONE_OPERAND else 2),
                partial(answers.result, number), number)
    for number in ARITHMETIC:
        yield EXACT_NUMBERS + number, Function(
            f'{OPERATIONS[number - 1]}_exact', (BARE,) * (1 if number in ONE_OPERAND else 2),
            partial(exact_ends, number), number)
    for first, group in FUNCTION_NUMBERS:
        for number, (name, takes, answer) in enumerate(group, first):
            yield number, Function(name, (takes,), answer)
    for number, (name, value) in enumerate(CONSTANTS.items(), CONSTANT_NUMBERS):
        yield number, Function(name, (), partial(bytes, value))


FUNCTIONS = dict(numbered())


def taken(record):
    """The operands that the record's function takes: place, way of taking, and bytes."""
    takes = FUNCTIONS[record[0]].takes
    return [(place, *both) for place, both in enumerate(zip(takes, operands(record)), 1)]


def refusal(record):
    """The number and the place a record is answered with: 0, 0 if accepted."""
    if record[0] not in FUNCTIONS:
        return 3, 0
    given = taken(record)
    for place, way, operand in given:
        if way.decoration and operand[16] not in DECORATIONS:
            return 4, place
    for place, way, operand in given:
        number = operand_refusal(way.judged(operand), way.by_value)
        if number:
            return number, place
    return 0, 0


def answer(record):
    """The reply to one record."""
    number, place = refusal(record)
    if number:
        return refused('decorated', number, place)
    function = FUNCTIONS[record[0]]
    given = [way.judged(operand) for _, way, operand in taken(record)]
    if function.takes == (BARE_AND_DECORATION,):
        given.append(operands(record)[0][16])
    return bytes(2) + function.answer(*given).ljust(OPERAND['decorated'], b'\0')
