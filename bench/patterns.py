"""Writes the sheets of the benchmark into a folder.

    python3 bench/patterns.py FOLDER
"""

import sys
from pathlib import Path
from random import Random

# In front, as this script's own folder has a module `patterns` too: this one.
sys.path.insert(0, str(Path(__file__).resolve().parent.parent / "reference"))

from patterns import Pattern, chain, grid, plain_sheet, random_pattern, random_tree, relabelled

SEED = 1


def bench_patterns() -> dict[str, Pattern]:
    """Each pattern by the name of its file. All but one have 512 nodes."""
    return {
        "grid": grid(22, 22),
        "chain": chain(512),
        "tree": relabelled(Random(SEED), random_tree(Random(SEED), 512)),
        "random": random_pattern(Random(SEED), 512, 900),
    }


def main(arguments: list[str]) -> int:
    if len(arguments) != 1:
        print("usage: patterns.py FOLDER", file=sys.stderr)
        return 2
    for name, pattern in bench_patterns().items():
        _, data = plain_sheet(pattern)
        Path(arguments[0], name).write_bytes(data)
    return 0


if __name__ == "__main__":
    sys.exit(main(sys.argv[1:]))
