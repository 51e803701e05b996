"""Compares what the program `migrate` prints for fresh random pairs of sheets with the enumerator.

    python3 tests/migrate/compare.py [--program PROGRAM] COUNT [SEED]

Gives the program COUNT drawn pairs of sheets, one run each. PROGRAM is target/bin/migrate, which
`tools/build migrate` makes.
"""

import pathlib
import sys

ROOT = pathlib.Path(__file__).resolve().parents[2]
sys.path[:0] = [str(ROOT / "enumerator"), str(ROOT / "tests")]
from carry_cases import drawn_sheets  # noqa: E402
from migrate import migrate  # noqa: E402
from programs import compare_pairs  # noqa: E402

sys.exit(compare_pairs("migrate", drawn_sheets, migrate, "list"))
