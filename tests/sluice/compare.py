"""Compares the program `sluice` with the enumerator on fresh random sheets.

    python3 tests/sluice/compare.py [--program PROGRAM] COUNT [SEED]

Gives the program COUNT random sheets, a quarter as many with divisions, a quarter
as many damaged ones, the sheets at the bounds and those with many situations, one run each, and compares every
byte that it prints. PROGRAM is target/bin/sluice, which `tools/build sluice` makes.
An endless input must be refused too, and not be read to its end.
"""

import pathlib
import subprocess
import sys
from collections import Counter

ROOT = pathlib.Path(__file__).resolve().parents[2]
sys.path[:0] = [str(ROOT / "enumerator"), str(ROOT / "tests")]
from damage import damaged_sheets  # noqa: E402
from generate import bound_sheets, counted_sheets, division_sheets, large_table_sheets, random_sheets  # noqa: E402
from programs import first_difference, kind_of, print_counts, random_arguments  # noqa: E402
from sluice import sluice  # noqa: E402

LETTER_LIMITS = (4, 8, 16, 32)
LONGEST_RUN = 60


def sheets(count, seed):
    """Random sheets with few and with more letters, and the generator's others."""
    each = -(-count // len(LETTER_LIMITS))
    chosen = []
    for place, limit in enumerate(LETTER_LIMITS):
        chosen += random_sheets(seed * len(LETTER_LIMITS) + place, each, limit)
    chosen = chosen[:count]
    damaged = damaged_sheets(seed, -(-count // 48))
    return (chosen + division_sheets(seed, count // 4) + damaged[:count // 4]
            + [(name, text) for name, _, text in bound_sheets()]
            + counted_sheets() + large_table_sheets())


def printed(program, text):
    done = subprocess.run([program], input=text, capture_output=True, timeout=LONGEST_RUN, check=True)
    return done.stdout


def endless_is_refused(program):
    """The program ends although its input does not."""
    with open("/dev/zero", "rb") as zeros:
        done = subprocess.run([program], stdin=zeros, capture_output=True, timeout=LONGEST_RUN, check=True)
    return done.stdout == b"refused 1\n"


def main():
    count, seed, program = random_arguments("sluice")
    counts = Counter()

    def fault(text):
        wanted, found = sluice(text), printed(program, text)
        counts[kind_of(wanted, "table")] += 1
        return None if found == wanted else ("printed", found[:2000], "wanted", wanted[:2000])

    if first_difference(([text] for _, text in sheets(count, seed)), fault):
        return 1
    if not endless_is_refused(program):
        print("DIFFERENCE: an endless input is not refused")
        return 1
    print_counts("sheets compared", seed, counts)
    return 0


if __name__ == "__main__":
    sys.exit(main())
