#!/usr/bin/env python3
"""Makes the fixed lists: the stored input and output of the programs bench and value_run.

From a long run of a generator each takes one request for each situation that arises, the
bench program's then others from the start, up to its size. An answer is the crate's where
the crate and document 01 agree, and document 01's where a difference is listed.
"""

import sys
from pathlib import Path

ROOT = Path(__file__).resolve().parent.parent
sys.path.insert(0, str(ROOT / 'python'))

import record_lists
import request_lists
from compare import answers, driver, stop
from differences import judge
from forms import FORMS
from muenglavot_reference import values
from muenglavot_reference.answers import ONE_BYTE
from muenglavot_reference.document import ENDS, TOO_SHORT, operands_read, proper, refused

SEED = 1788
DRAWN = 250_000
# The least size of the bench program's list.
SIZE = 4_000


def sort_of(operand):
    """The signs of an accepted operand's ends, which tell its class; or NaI, or EMPTY."""
    a, b = ENDS.unpack_from(operand)
    if a != a:
        return 'NaI'
    return 'EMPTY' if a > b else ((a > 0) - (a < 0), (b > 0) - (b < 0))


def refusal_situation(form, request):
    """What is asked for, the refusal, and whether the crate takes the operand for NaI; of an
    unknown number the refusal alone. Nothing if the request is accepted."""
    number, place = form.refusal(request)
    if number in (0, 3):
        return number
    return request[0], number, place, form.nai_to_the_crate_at(request, place)


def request_situation(request, answer):
    """Of an accepted request: the operation, the sorts of operands and what is told: an answer
    of one byte, or the decoration, which is the last."""
    operation = request[0]
    told = answer[2] if operation in ONE_BYTE else answer[-1]
    return operation, told, *map(sort_of, operands_read(request))


def record_situation(record, answer):
    """Of an accepted record: the function, and whether the first operand is NaI, EMPTY, or has a
    zero of the other sign; with an answer of one byte to two operands, that and their sorts."""
    given = [way.judged(operand) for _, way, operand in values.taken(record)]
    if values.FUNCTIONS[record[0]].operation in ONE_BYTE:
        return record[0], answer[2], *map(sort_of, given)
    told = []
    for operand in given[:1]:
        ends = ENDS.unpack_from(operand)
        told = ends[0] != ends[0], ends[0] > ends[1], proper(*ends)
    return record[0], *told


def chosen(situations, size):
    """The places of the requests to keep."""
    first = {}
    for at, situation in enumerate(situations):
        first.setdefault(situation, at)
    kept = set(first.values())
    for at in range(len(situations)):
        if len(kept) >= size:
            break
        kept.add(at)
    return sorted(kept)


def make(program, kind, requests, situation, size=0, piece=b''):
    form = FORMS[kind]
    crate = list(answers(driver(kind), requests, form.answer_length))
    places = chosen([refusal_situation(form, request) or situation(request, answer)
                     for request, answer in zip(requests, crate)], size)
    kept = []
    for at in places:
        ours = form.answer(requests[at])
        verdict = judge(form, requests[at], ours, crate[at])
        if verdict is None:
            stop(f'the crate and the reference differ on {requests[at].hex()}')
        kept.append(crate[at] if verdict == 'equal' else ours)
    folder = ROOT / 'crates' / program
    if piece:
        kept.append(refused('decorated', TOO_SHORT, 0))
    (folder / 'stdin').write_bytes(b''.join(requests[at] for at in places) + piece)
    (folder / 'stdout').write_bytes(b''.join(kept))
    print(f'{program}: {len(places)}')


def main():
    requests = list(request_lists.Generator('decorated', SEED).requests(DRAWN))
    make('bench_program', 'decorated', requests, request_situation, SIZE)
    records = list(record_lists.Generator(SEED).records(DRAWN))
    make('value_run', 'values', records, record_situation, piece=records[0][:-1])


if __name__ == '__main__':
    main()
