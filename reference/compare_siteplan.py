"""Compares the program `siteplan` with the planner in plan.py, on sheets to read and on patterns to plan.

    python3 reference/compare_siteplan.py PROGRAM [COUNT]

ends with status 1 if the two differ on any sheet, if no sheet was planned or none refused for its places, and if
plan.py itself fails a worked pattern of docs/PLAN.md.
"""

import sys
from collections.abc import Iterator
from itertools import chain, islice

from comparison import Comparison, compare, program_and_count
from patterns import patterns
from plan import siteplan
from sheets import Named, sheets
from worked_patterns import self_check

USUAL_COUNT = 1_500
SEED = 2

SITEPLAN = Comparison(
    name="siteplan",
    reference=siteplan,
    success="planned",
    faults=["fault 13", *(f"fault {number}" for number in range(1, 13))],
    needed=["planned", "fault 13"],
)


def inputs(count: int) -> Iterator[Named]:
    """Patterns and sheets in turn, so that even a short comparison has some of both."""
    return islice(chain.from_iterable(zip(patterns(count, SEED), sheets(count, SEED))), count)


def main(arguments: list[str]) -> int:
    program, count = program_and_count(arguments, USUAL_COUNT, "compare_siteplan.py")
    failing = self_check()
    if failing:
        print("plan.py fails worked patterns: " + ", ".join(failing))
        return 1
    return 0 if compare(SITEPLAN, program, inputs(count)) else 1


if __name__ == "__main__":
    sys.exit(main(sys.argv[1:]))
