#!/usr/bin/env python3
"""Writes requests, or records of calls by value, to standard output, the same ones for
the same arguments.

    oracle/generate.py --kind bare|decorated|values --seed N --count N
    oracle/generate.py --kind bare|decorated|values --exhaustive [--comparisons]

With --comparisons the exhaustive list has the operations that answer yes or no only.
"""

import argparse
import sys
from itertools import islice
from pathlib import Path

sys.path.insert(0, str(Path(__file__).resolve().parent.parent / 'python'))

import record_lists
import request_lists
from muenglavot_reference.document import COMPARISONS

KINDS = ('bare', 'decorated', 'values')
# How many are written at a time.
BLOCK = 10_000


def main():
    parser = argparse.ArgumentParser(description='Writes requests to standard output.')
    parser.add_argument('--kind', choices=KINDS, required=True)
    parser.add_argument('--seed', type=int, default=1)
    parser.add_argument('--count', type=int, default=100_000)
    parser.add_argument('--exhaustive', action='store_true')
    parser.add_argument('--comparisons', action='store_true')
    given = parser.parse_args()
    only = COMPARISONS if given.comparisons else None
    if given.kind == 'values':
        made = (record_lists.exhaustive(only) if given.exhaustive
                else record_lists.Generator(given.seed).records(given.count))
    else:
        made = (request_lists.exhaustive(given.kind, only) if given.exhaustive
                else request_lists.Generator(given.kind, given.seed).requests(given.count))
    while block := b''.join(islice(made, BLOCK)):
        sys.stdout.buffer.write(block)


if __name__ == '__main__':
    main()
