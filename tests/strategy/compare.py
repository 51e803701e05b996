"""Judges what the program `strategy` prints for fresh random sheets by the enumerator.

    python3 tests/strategy/compare.py [--program PROGRAM] COUNT [SEED]

Gives the program COUNT drawn sheets with kinds, a quarter as many other random sheets and
as many with divisions, one run each. PROGRAM is target/bin/strategy, which `tools/build
strategy` makes.
"""

import pathlib
import random
import sys
import tempfile
from collections import Counter

ROOT = pathlib.Path(__file__).resolve().parents[2]
sys.path[:0] = [str(ROOT / "enumerator"), str(ROOT / "tests")]
from game_cases import drawn_sheet  # noqa: E402
from generate import division_sheets, random_kinds_sheets  # noqa: E402
from programs import Runs, first_difference, kind_of, print_counts, random_arguments  # noqa: E402
from strategy_check import printed_fault  # noqa: E402


def sheets(count, seed):
    rng = random.Random("strategy %d" % seed)
    others = random_kinds_sheets(seed, count // 4, 16) + division_sheets(seed, count // 4)
    return [drawn_sheet(rng) for _ in range(count)] + [text for _, text in others]


def main():
    count, seed, program = random_arguments("strategy")
    counts = Counter()
    with tempfile.TemporaryDirectory() as folder:
        runs = Runs("strategy", program, folder)

        def fault(text):
            printed, told = runs.run([runs.file("sheet", text)])
            found = printed_fault(text, printed)
            counts[kind_of(printed, "play table")] += 1
            return ("printed", printed[:2000], found, told) if found or told else None

        if first_difference(([text] for text in sheets(count, seed)), fault):
            return 1
    print_counts("sheets judged", seed, counts)
    return 0


if __name__ == "__main__":
    sys.exit(main())
