#!/usr/bin/env python3
"""Answers requests, or records of calls by value, by exact fractions: a witness beside the
crate and the port.

    oracle/reference.py bare|decorated|values < requests > answers
"""

import sys
from pathlib import Path

sys.path.insert(0, str(Path(__file__).resolve().parent.parent / 'python'))

from forms import FORMS


def main():
    if len(sys.argv) != 2 or sys.argv[1] not in FORMS:
        sys.exit('reference.py: say bare, decorated or values')
    form = FORMS[sys.argv[1]]
    while request := sys.stdin.buffer.read(form.length):
        if len(request) < form.length:
            sys.exit('reference.py: the last request is cut short')
        sys.stdout.buffer.write(form.answer(request))


if __name__ == '__main__':
    main()
