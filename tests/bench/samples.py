"""Requests with their replies: some that are accepted for each operation, and each refusal."""
import sys
from math import inf, nan
from pathlib import Path

ROOT = Path(__file__).resolve().parent.parent.parent
sys.path.insert(0, str(ROOT / 'python'))

from muenglavot_reference import answers, document
from muenglavot_reference.document import (
    COM, DAC, DEF, EMPTY, ILL, MOST, NAI, NAI_ENDS, NUMBER, PATTERNS, QUIET, TRV, decorated)
from muenglavot_reference.doubles import SIGN

REQUEST = document.REQUEST['decorated']
REPLY = document.ANSWER['decorated']
NO_DECORATION = 5

FIRST = decorated(1, 2, COM)
SECOND = decorated(-3, 4, COM)
OPERANDS = (FIRST, SECOND, NAI, EMPTY + bytes([TRV]))

# Two NaNs of which one or both are not NaI's.
OTHER_NANS = tuple(PATTERNS.pack(*ends) for ends in (
    (QUIET + 1, QUIET + 1), (QUIET | SIGN, QUIET | SIGN), (QUIET, QUIET | SIGN), (QUIET + 1, QUIET)))

# Operands that are refused, each in another way.
BAD_OPERANDS = (
    decorated(1, 2, NO_DECORATION),
    NAI_ENDS + bytes([NO_DECORATION]),
    decorated(2, 1, COM),
    decorated(0.0, 1, COM),
    decorated(-1, -0.0, COM),
    decorated(1, nan, COM),
    decorated(inf, inf, DAC),
    decorated(1, 2, ILL),
    decorated(1, inf, COM),
    decorated(inf, -inf, DEF),
    NAI_ENDS + bytes([TRV]),
    *(ends + bytes([decoration]) for ends in OTHER_NANS for decoration in (ILL, TRV, NO_DECORATION)),
)

TOO_SHORT = document.refused('decorated', document.TOO_SHORT, 0)
TOO_MANY = document.refused('decorated', document.TOO_MANY, 0)


def request(operation, first=FIRST, second=SECOND):
    return bytes([operation]) + first + second


def judged(data):
    """The replies that the reference gives to whole requests."""
    return b''.join(answers.answer(data[at:at + REQUEST]) for at in range(0, len(data), REQUEST))


def refused():
    """Each refusal of a whole request, with its reply."""
    add, neg = NUMBER['add'], NUMBER['neg']
    requests = [request(number) for number in (0, len(NUMBER) + 1, 255)]
    for bad in BAD_OPERANDS:
        requests += [request(add, bad, SECOND), request(add, bad, bad), request(add, FIRST, bad), request(neg, bad, SECOND)]
    # An unknown operation comes first, and the first operand before the second.
    requests += [request(0, BAD_OPERANDS[0], SECOND), request(add, decorated(1, 2, ILL), decorated(1, 2, NO_DECORATION))]
    for one in requests:
        yield one, judged(one)


def accepted():
    """Requests that are accepted: each operation on a few operands."""
    for operation in NUMBER.values():
        for first in OPERANDS:
            for second in OPERANDS:
                yield request(operation, first, second)


def fixed():
    """The fixed list: its requests and their replies."""
    bench = ROOT / 'crates' / 'bench_program'
    return (bench / 'stdin').read_bytes(), (bench / 'stdout').read_bytes()
