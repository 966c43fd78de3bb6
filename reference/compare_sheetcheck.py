"""Compares the program `sheetcheck` with the reader in sheet.py, on sheets both whole and damaged.

    python3 reference/compare_sheetcheck.py PROGRAM [COUNT]

ends with status 1 if the two differ on any sheet, and also if some outcome never came up: a comparison that never sees
a fault shows nothing about it.
"""

import sys

from comparison import Comparison, compare, program_and_count
from sheet import account
from sheets import sheets

USUAL_COUNT = 3_000
SEED = 1
FAULTS = [f"fault {number}" for number in range(1, 13)]

SHEETCHECK = Comparison(
    name="sheetcheck",
    reference=account,
    success="accepted",
    faults=FAULTS,
    needed=["accepted", *FAULTS],
)


def main(arguments: list[str]) -> int:
    program, count = program_and_count(arguments, USUAL_COUNT, "compare_sheetcheck.py")
    return 0 if compare(SHEETCHECK, program, sheets(count, SEED)) else 1


if __name__ == "__main__":
    sys.exit(main(sys.argv[1:]))
