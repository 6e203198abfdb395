#!/usr/bin/env python3
"""Compares the codecs, which read an interval in one byte order and write the other.

    oracle/byte_orders.py [--ours CMD] [--seed N] [--count N]

CMD gets a codec's name as its last argument, as bare-be-to-le, reads intervals of
16 or 17 bytes from standard input and writes number, place and answer for each. It
must answer as document 01 says, and the crate as differences.py lists. The last
line is 'N passed, M failed'.
"""

import argparse
import shlex
import sys
from pathlib import Path

sys.path.insert(0, str(Path(__file__).resolve().parent.parent / 'python'))

from compare import answers, driver
from differences import unread
from forms import nai_to_the_crate
from muenglavot_reference.document import (
    ANSWER, NAI, OPERAND, operand_refusal, operands, refused, turned)
from request_lists import Generator


def expected(kind, interval):
    """Document 01's answer and the crate's, in big endian."""
    number = operand_refusal(interval)
    if not number:
        accepted = bytes(2) + interval
        return accepted, accepted
    ours = refused(kind, number, 1)
    return ours, bytes(2) + NAI if nai_to_the_crate(interval) else unread(len(ours), 1)


def checks(kind, intervals, order, command):
    """Of each interval and side: the input, what was wanted, what was answered."""
    into, out_of = (turned, bytes) if order == 'le-to-be' else (bytes, turned)
    given = [into(interval) for interval in intervals]
    wanted = [expected(kind, interval) for interval in intervals]
    sides = [(1, driver(f'{kind}-{order}'))]
    if command:
        sides.append((0, [*shlex.split(command), f'{kind}-{order}']))
    for side, asked in sides:
        for source, pair, found in zip(given, wanted, answers(asked, given, ANSWER[kind])):
            yield source, pair[side][:2] + out_of(pair[side][2:]), found


def main():
    parser = argparse.ArgumentParser(description='Compares the codecs.')
    parser.add_argument('--ours', help='the command of the port')
    parser.add_argument('--seed', type=int, default=1)
    parser.add_argument('--count', type=int, default=20_000)
    given = parser.parse_args()
    passed = failed = 0
    for kind in OPERAND:
        requests = Generator(kind, given.seed).requests(given.count)
        intervals = [operand for request in requests for operand in operands(request)]
        others = sum(nai_to_the_crate(one) and operand_refusal(one) == 5 for one in intervals)
        print(f'{kind}: {len(intervals)} intervals, {others} of them another spelling of NaI')
        for order in ('be-to-le', 'le-to-be'):
            for source, wanted, found in checks(kind, intervals, order, given.ours):
                if wanted == found:
                    passed += 1
                else:
                    failed += 1
                    print(f'wrong: {kind}-{order} {source.hex()}: {found.hex()}')
    print(f'{passed} passed, {failed} failed')
    sys.exit(1 if failed else 0)


if __name__ == '__main__':
    main()
