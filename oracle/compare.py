#!/usr/bin/env python3
"""Runs the port and the crate on the same requests and compares their answers.

    oracle/compare.py --kind bare|decorated|values --ours CMD [--chunk N] [REQUESTS]

Both sides read requests, or records of calls by value, from standard input and write
number, place and answer for each. REQUESTS is a file (default: standard input). With --chunk our command
is run anew for every N requests. The last line is 'N passed, M failed', where a
listed difference has passed; the exit status is 0 only if none has failed.
"""

import argparse
import shlex
import subprocess
import sys
from collections import Counter
from pathlib import Path

ROOT = Path(__file__).resolve().parent.parent
sys.path.insert(0, str(ROOT / 'python'))

from differences import DIFFERENCES, judge
from forms import FORMS
from muenglavot_reference.document import ILL, NUMBER

DRIVER = ROOT / 'target' / 'oracle' / 'driver'
# How many unexplained differences are printed.
SHOWN = 50


def stop(reason):
    sys.exit(f'{Path(sys.argv[0]).name}: {reason}')


def driver(kind):
    """The command that asks the crate."""
    if not DRIVER.exists():
        stop('the crate is not built, so nothing was compared: run oracle/build')
    return [str(DRIVER), kind]


def answers(command, requests, length, chunk=None):
    """A command's answers of a fixed length, with one run of it for each chunk."""
    step = chunk or len(requests)
    for start in range(0, len(requests), step):
        piece = requests[start:start + step]
        try:
            done = subprocess.run(command, input=b''.join(piece), stdout=subprocess.PIPE)
        except OSError as error:
            stop(f'{shlex.join(command)}: {error.strerror}')
        if done.returncode or len(done.stdout) != len(piece) * length:
            stop(f'{shlex.join(command)} ended with status {done.returncode} and wrote '
                 f'{len(done.stdout)} bytes for {len(piece)} requests')
        yield from split(done.stdout, length)


def split(joined, length):
    return [joined[at:at + length] for at in range(0, len(joined), length)]


def nai_second(form, request):
    """Whether only the second operand of a maximum or minimum is NaI."""
    return (form.decorated_operation(request) in (NUMBER['max'], NUMBER['min'])
            and request[17] != ILL and request[34] == ILL and form.refusal(request) == (0, 0))


def compare(form, rows):
    """Counts by function and verdict, the rows not explained, and a side count."""
    found, unexplained, second = Counter(), [], 0
    for row in rows:
        verdict = judge(form, *row)
        found[form.name(row[0]), verdict] += 1
        if verdict is None:
            unexplained.append(row)
        elif nai_second(form, row[0]):
            second += 1
    return found, unexplained, second


def report(form, found, unexplained, second):
    width = max(map(len, form.names)) + 2
    print(f'{"function":{width}}{"requests":>10}{"equal":>10}{"explained":>10}{"unexplained":>12}')
    for function in (*form.names, None):
        verdicts = {name: count for (of, name), count in found.items() if of == function}
        total = sum(verdicts.values())
        equal, failed = verdicts.get('equal', 0), verdicts.get(None, 0)
        print(f'{function or "other":{width}}{total:10}{equal:10}{total - equal - failed:10}{failed:12}')
    for name in DIFFERENCES:
        count = sum(count for (_, verdict), count in found.items() if verdict == name)
        print(f'explained by {name}: {count}')
    print(f'max and min with NaI second only: {second} equal')
    for request, ours, theirs in unexplained[:SHOWN]:
        print(f'unexplained: request {request.hex()} ours {ours.hex()} theirs {theirs.hex()}')
    print(f'{sum(found.values()) - len(unexplained)} passed, {len(unexplained)} failed')


def main():
    parser = argparse.ArgumentParser(description='Compares the port with the crate.')
    parser.add_argument('--kind', choices=FORMS, required=True)
    parser.add_argument('--ours', required=True, help='the command of the port')
    parser.add_argument('--chunk', type=int, help='requests to a run of our command')
    parser.add_argument('requests', nargs='?', help='a file of requests')
    given = parser.parse_args()
    theirs = driver(given.kind)
    form = FORMS[given.kind]
    joined = Path(given.requests).read_bytes() if given.requests else sys.stdin.buffer.read()
    if not joined or len(joined) % form.length:
        stop(f'{len(joined)} bytes are not a number of requests of {form.length} bytes')
    requests = split(joined, form.length)
    found, unexplained, second = compare(form, zip(
        requests,
        answers(shlex.split(given.ours), requests, form.answer_length, given.chunk),
        answers(theirs, requests, form.answer_length)))
    report(form, found, unexplained, second)
    sys.exit(1 if unexplained else 0)


if __name__ == '__main__':
    main()
