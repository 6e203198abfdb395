"""The program under test, fed at once, in pieces, or by a peer that waits."""
import os
import subprocess
import time
import tty

BENCH = ['tests/x86', 'target/bin/bench_program']
# Far longer than any run takes, so that a program which waits for more is found out.
PATIENCE = 20
# How long a program has to take what was sent before the other side hangs up.
HANG_UP = 0.3


def start():
    return subprocess.Popen(BENCH, stdin=subprocess.PIPE, stdout=subprocess.PIPE, bufsize=0)


def run(data):
    """What the program writes for an input that is there at once."""
    return subprocess.run(BENCH, input=data, capture_output=True, timeout=PATIENCE, check=True).stdout


def run_in_pieces(data, sizes, pause):
    """What it writes for an input that arrives in pieces of these sizes, in turn, with a pause after each.

    The output has to fit a pipe, since it is read last."""
    with start() as process:
        at = 0
        turn = 0
        while at < len(data):
            size = sizes[turn % len(sizes)]
            process.stdin.write(data[at:at + size])
            at += size
            turn += 1
            time.sleep(pause)
        return process.communicate(timeout=PATIENCE)[0]


def run_on(descriptor):
    """What the program writes for an input that is an open file, a terminal or a folder."""
    return subprocess.run(BENCH, stdin=descriptor, capture_output=True, timeout=PATIENCE, check=True).stdout


def run_until_it_fails(data):
    """What it writes for an input that ends in a failed read: a terminal whose other side hangs up."""
    here, there = os.openpty()
    tty.setraw(there)
    with subprocess.Popen(BENCH, stdin=there, stdout=subprocess.PIPE) as process:
        os.close(there)
        os.write(here, data)
        time.sleep(HANG_UP)
        os.close(here)
        return process.communicate(timeout=PATIENCE)[0]


def read_exactly(stream, count):
    """So many bytes, or fewer at the end or when patience ends."""
    os.set_blocking(stream.fileno(), False)
    got = b''
    until = time.monotonic() + PATIENCE
    while len(got) < count and time.monotonic() < until:
        more = stream.read(count - len(got))
        if more is None:
            time.sleep(0.001)
        elif more:
            got += more
        else:
            break
    return got
