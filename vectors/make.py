#!/usr/bin/env -S python3 -B
"""Makes the stored cases: the program's standard input, and the standard output that it is held to."""
import sys
from pathlib import Path

ROOT = Path(__file__).resolve().parent.parent
sys.path.insert(0, str(ROOT / "python"))

from cases import all_right, cases

SEED = 1
COUNT = 6000
PROGRAM = ROOT / "crates" / "rounding_cases"

(PROGRAM / "stdin").write_bytes(b"".join(cases(SEED, COUNT)))
(PROGRAM / "stdout").write_text(all_right(COUNT))
