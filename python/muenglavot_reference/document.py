"""Document 01's words on intervals as bytes and on requests: their form, and what is refused."""

from math import copysign, inf
from struct import Struct

OPERATIONS = (
    'neg', 'add', 'sub', 'mul', 'div', 'convex_hull', 'intersection', 'max', 'min',
    'abs', 'ceil', 'floor', 'round', 'round_ties_even', 'sign', 'trunc', 'overlap',
    'equal', 'subset', 'interior', 'disjoint', 'less', 'strict_less', 'precedes', 'strict_precedes')
NUMBER = {name: number for number, name in enumerate(OPERATIONS, 1)}
ONE_OPERAND = frozenset(NUMBER[name] for name in (
    'neg', 'abs', 'ceil', 'floor', 'round', 'round_ties_even', 'sign', 'trunc'))
# The operations whose exact ends can be asked for.
ARITHMETIC = tuple(NUMBER[name] for name in ('neg', 'add', 'sub', 'mul', 'div'))
# The operations that answer yes or no.
COMPARISONS = tuple(range(NUMBER['equal'], NUMBER['strict_precedes'] + 1))

ILL, TRV, DEF, DAC, COM = DECORATIONS = (0, 4, 8, 12, 16)

# The length of an operand, which is also that of an answer's bytes.
OPERAND = {'bare': 16, 'decorated': 17}
# A request is a number and two operands, an answer a number, a place and bytes.
REQUEST = {kind: 1 + 2 * length for kind, length in OPERAND.items()}
ANSWER = {kind: 2 + length for kind, length in OPERAND.items()}
# With exact ends a bare answer has two more bytes: for either end 1 if it is exact, else 0.
ANSWER['exact'] = ANSWER['bare'] + 2

ENDS = Struct('>dd')
PATTERNS = Struct('>QQ')
# The NaN that both ends of NaI have. Any other is refused.
QUIET = 0x7FF8000000000000
EMPTY = ENDS.pack(inf, -inf)
ENTIRE = ENDS.pack(-inf, inf)
NAI_ENDS = PATTERNS.pack(QUIET, QUIET)
NAI = NAI_ENDS + bytes([ILL])

# The numbers that end a run of the bench program, and how many requests it answers.
TOO_SHORT, TOO_MANY = 1, 7
MOST = 4096


def decorated(lower, upper, decoration):
    """The bytes of a decorated interval, or of what is none."""
    return ENDS.pack(lower, upper) + bytes([decoration])


def operands(request):
    """The bytes of the two operands of a request."""
    length = len(request) // 2
    return request[1:1 + length], request[1 + length:]


def operands_read(request):
    """The bytes of the operands that a request's operation reads."""
    return operands(request)[:1 if request[0] in ONE_OPERAND else 2]


def turned(interval):
    """The bytes of an interval in the other byte order."""
    return interval[7::-1] + interval[15:7:-1] + interval[16:]


def proper(a, b, by_value=False):
    """Whether two ends are a proper pair: as bytes with the zeros that the bytes have,
    by value with zeros of either sign."""
    return (a <= b and a != inf and b != -inf
            and (by_value or (a != 0 or copysign(1, a) < 0)
                 and (b != 0 or copysign(1, b) > 0)))


def operand_refusal(operand, by_value=False):
    """The number an operand is refused with, 0 if it is accepted."""
    a, b = ENDS.unpack_from(operand)
    is_proper = proper(a, b, by_value)
    is_empty = a == inf and b == -inf
    if len(operand) == OPERAND['bare']:
        return 0 if is_proper or is_empty else 5
    decoration = operand[16]
    if decoration not in DECORATIONS:
        return 4
    is_nai = operand.startswith(NAI_ENDS)
    if not (is_proper or is_empty or is_nai):
        return 5
    against = (is_proper and decoration == ILL
               or (a == -inf or b == inf) and decoration == COM
               or is_empty and decoration != TRV
               or is_nai and decoration != ILL)
    return 6 if against else 0


def refusal(request, known=NUMBER.values()):
    """The number and the place a request is answered with where these operations are known:
    0, 0 if accepted."""
    operation = request[0]
    if operation not in known:
        return 3, 0
    first, second = operands(request)
    number = operand_refusal(first)
    if number:
        return number, 1
    if operation not in ONE_OPERAND:
        number = operand_refusal(second)
        if number:
            return number, 2
    return 0, 0


def refused(kind, number, place):
    """The whole answer to a request that is refused."""
    return bytes((number, place)).ljust(ANSWER[kind], b'\0')
