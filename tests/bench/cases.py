"""What document 01 says of the bench program's runs, tried on the built program."""
import os
import sys

from program import read_exactly, run, run_in_pieces, run_on, run_until_it_fails, start
from samples import (
    BAD_OPERANDS, FIRST, MOST, REPLY, REQUEST, SECOND, TOO_MANY, TOO_SHORT, accepted, fixed, judged, refused, request)

# Bytes that a pipe takes before its reader has taken any.
PIPE = 65536
# Sizes of pieces: single bytes, around a request, around the program's buffers, and mixed.
PIECES = [[1], [2], [3], [7], [34], [35], [36], [69], [70], [71], [1000], [17919], [17920], [17921], [4096], [1, 34, 36, 100, 5]]
DOCUMENT_RUN = (
    '05 3FF0000000000000 3FF0000000000000 10 4008000000000000 4008000000000000 10',
    '00 00 3FD5555555555555 3FD5555555555556 10')

passed = 0
failed = 0


def check(name, found, wanted):
    global passed, failed
    if found == wanted:
        passed += 1
    else:
        failed += 1
        print(f'{name}: {len(found)} bytes, expected {len(wanted)}: {found[:64].hex()} is not {wanted[:64].hex()}')


def try_ends(requests, answers):
    """The ends of a run: nothing, a last piece, and the last request that is answered."""
    check('empty input', run(b''), b'')
    for length in range(1, REQUEST):
        piece = request(2)[:length]
        check(f'a piece of {length} alone', run(piece), TOO_SHORT)
        check(f'a piece of {length} after 3 requests', run(requests[:3 * REQUEST] + piece), answers[:3 * REPLY] + TOO_SHORT)
        check(f'a piece of {length} after {MOST - 1} requests', run(requests[:-REQUEST] + piece), answers[:-REPLY] + TOO_SHORT)
    check(f'{MOST} requests', run(requests), answers)
    check(f'{MOST - 1} requests', run(requests[:-REQUEST]), answers[:-REPLY])
    for more in [1, 34, 35, 36, 100000]:
        check(f'{MOST} requests and {more} bytes', run(requests + bytes(more)), answers + TOO_MANY)


def try_failed_reads(requests, answers):
    """A read that fails counts as the end of the input: all that arrived is answered."""
    folder = os.open('.', os.O_RDONLY)
    check('a folder as input', run_on(folder), b'')
    os.close(folder)
    check('two requests, then a failed read', run_until_it_fails(requests[:2 * REQUEST]), answers[:2 * REPLY])
    check('a piece of a request, then a failed read', run_until_it_fails(requests[:REQUEST + 9]), answers[:REPLY] + TOO_SHORT)


def try_requests():
    """Document 01's run, each operation, and each refusal."""
    given, wanted = (bytes.fromhex(text) for text in DOCUMENT_RUN)
    check("document 01's run", run(given), wanted)
    everything = b''.join(accepted())
    check('all operations', run(everything), judged(everything))
    for one in accepted():
        if one[1:] == FIRST + SECOND:
            check(f'operation {one[0]} alone', run(one), judged(one))
    for one, reply in refused():
        check(f'refusal of {one.hex()}', run(one), reply)
    both = list(refused())
    check('all refusals', run(b''.join(one for one, _ in both)), b''.join(reply for _, reply in both))
    for bad in BAD_OPERANDS:
        one = request(1, FIRST, bad)
        check(f'an operand that is not read, {bad.hex()}', run(one), judged(one))


def try_pieces(requests, answers):
    """The same output, however the input arrives."""
    few = 200
    count = PIPE // REQUEST
    for sizes in PIECES:
        check(f'pieces of {sizes}', run_in_pieces(requests[:count * REQUEST], sizes, 0), answers[:count * REPLY])
        if max(sizes) <= 100:
            given = requests[:few * REQUEST] + b'\x02'
            pause = 0.0005 if min(sizes) < REQUEST else 0.005
            check(f'slow pieces of {sizes}', run_in_pieces(given, sizes, pause), answers[:few * REPLY] + TOO_SHORT)
    check('pieces over the end', run_in_pieces(requests[:REQUEST * 10] + bytes(3), [REQUEST * 10, 1], 0.01), answers[:REPLY * 10] + TOO_SHORT)


def try_waiting_peer(requests, answers):
    """A peer that waits for each answer, and one that sends half a request more."""
    with start() as process:
        for i in range(20):
            process.stdin.write(requests[i * REQUEST:(i + 1) * REQUEST])
            check(f'answer {i} before the next request', read_exactly(process.stdout, REPLY), answers[i * REPLY:(i + 1) * REPLY])
        process.stdin.write(requests[20 * REQUEST:22 * REQUEST + 17])
        check('two answers before the third request is whole', read_exactly(process.stdout, 2 * REPLY), answers[20 * REPLY:22 * REPLY])
        process.stdin.close()
        check('number 1 at the end', read_exactly(process.stdout, REPLY + 1), TOO_SHORT)
    with start() as process:
        process.stdin.write(requests[:1000 * REQUEST])
        for i in range(1, 4):
            read_exactly(process.stdout, 1000 * REPLY)
            process.stdin.write(requests[1000 * i * REQUEST:1000 * (i + 1) * REQUEST])
        read_exactly(process.stdout, 1000 * REPLY)
        process.stdin.write(requests[4000 * REQUEST:])
        check('the last answers while the input is open', read_exactly(process.stdout, 96 * REPLY), answers[4000 * REPLY:])
        process.stdin.write(b'\0')
        check('number 7 while the input is open', read_exactly(process.stdout, REPLY + 1), TOO_MANY)


def main():
    fixed_requests, fixed_answers = fixed()
    check('the fixed list', run(fixed_requests), fixed_answers)
    short = MOST * REQUEST - len(fixed_requests)
    requests = fixed_requests + fixed_requests[:short]
    answers = fixed_answers + fixed_answers[:short // REQUEST * REPLY]
    try_ends(requests, answers)
    try_failed_reads(requests, answers)
    try_requests()
    try_pieces(requests, answers)
    try_waiting_peer(requests, answers)
    print(f'{passed} passed, {failed} failed')
    sys.exit(failed > 0)


if __name__ == '__main__':
    main()
