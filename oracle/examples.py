#!/usr/bin/env python3
"""Checks the crate's documented examples and document 01's cases.

    oracle/examples.py [--bare CMD] [--decorated CMD] [--values CMD]

Each line of the three lists goes to the driver over the crate, whose answer may differ as
differences.py lists, to the reference, and to the port where its command for that kind is
given; these two must answer exactly so. The last line is 'N passed, M failed'.
"""

import argparse
import shlex
import sys
from pathlib import Path

HERE = Path(__file__).resolve().parent
sys.path.insert(0, str(HERE.parent / 'python'))

from compare import answers, driver
from differences import judge
from forms import FORMS

# Lists of requests, whose length says their kind, and of records of calls by value.
REQUESTS = ('examples.txt', 'cases.txt')
RECORDS = 'value_examples.txt'


def lines_of(name):
    """The requests of a list with their answers and names."""
    for line in (HERE / name).read_text().splitlines():
        if line and not line.startswith('#'):
            request, answer, name = line.split('|')
            yield bytes.fromhex(request), bytes.fromhex(answer), name.strip()


def lines_by_kind():
    requests = [line for name in REQUESTS for line in lines_of(name)]
    for kind in ('bare', 'decorated'):
        yield kind, [line for line in requests if len(line[0]) == FORMS[kind].length]
    yield 'values', list(lines_of(RECORDS))


def checks(kind, lines, port):
    """Of each line and each side: a title, and whether the side's answer is right."""
    form = FORMS[kind]
    requests = [request for request, _, _ in lines]
    for (request, answer, name), theirs in zip(
            lines, answers(driver(kind), requests, form.answer_length)):
        yield f'crate: {name}: {theirs.hex()}', judge(form, request, answer, theirs) is not None
        found = form.answer(request)
        yield f'reference: {name}: {found.hex()}', found == answer
    if port:
        ours = answers(shlex.split(port), requests, form.answer_length)
        for (_, answer, name), found in zip(lines, ours):
            yield f'port: {name}: {found.hex()}', found == answer


def main():
    parser = argparse.ArgumentParser(description='Checks the listed examples and cases.')
    for kind in FORMS:
        parser.add_argument(f'--{kind}', help=f"the port's command for {kind}")
    given = vars(parser.parse_args())
    passed = failed = 0
    for kind, lines in lines_by_kind():
        for title, right in checks(kind, lines, given[kind]):
            passed += right
            failed += not right
            if not right:
                print(f'wrong: {title}')
    print(f'{passed} passed, {failed} failed')
    sys.exit(1 if failed else 0)


if __name__ == '__main__':
    main()
