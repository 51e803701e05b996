"""Compares what the program `join` prints for fresh random pairs of sheets with the enumerator.

    python3 tests/join/compare.py [--program PROGRAM] COUNT [SEED]

Gives the program COUNT drawn pairs of sheets, one run each. PROGRAM is target/bin/join, which
`tools/build join` makes.
"""

import pathlib
import sys

ROOT = pathlib.Path(__file__).resolve().parents[2]
sys.path[:0] = [str(ROOT / "enumerator"), str(ROOT / "tests")]
from join_cases import drawn_sheets  # noqa: E402
from join import join_sheets  # noqa: E402
from programs import compare_pairs  # noqa: E402

sys.exit(compare_pairs("join", drawn_sheets, join_sheets, "table"))
