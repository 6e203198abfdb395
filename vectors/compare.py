#!/usr/bin/env -S python3 -B
"""Makes more cases and has the compiled program judge them."""
import argparse
import subprocess
import sys
from pathlib import Path

ROOT = Path(__file__).resolve().parent.parent
sys.path.insert(0, str(ROOT / "python"))

from cases import CASE, NAMES, all_right, cases

BUILT = ROOT / "target" / "bin" / "rounding_cases"

options = argparse.ArgumentParser(description=__doc__)
options.add_argument("count", type=int, nargs="?", default=1_000_000, help="cases of all operations together")
options.add_argument("--seed", type=int, default=2)
options.add_argument("--program", type=Path, default=BUILT)
given = options.parse_args()

each = -(-given.count // len(NAMES))
made = b"".join(cases(given.seed, each))
told = subprocess.run([ROOT / "tests" / "x86", given.program], input=made, stdout=subprocess.PIPE, check=True).stdout.decode()
print(told, end="")
if told != all_right(each):
    for line in told.splitlines():
        if line.startswith("first wrong case: "):
            at = int(line.split(": ")[1]) * CASE.size
            print("number, operands and exact answer:", *(f"{word:x}" for word in CASE.unpack_from(made, at)))
    sys.exit(1)
