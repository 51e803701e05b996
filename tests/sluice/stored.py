"""Runs the program `sluice` on every stored sheet and every example, and compares what it prints with the enumerator.

    python3 tests/sluice/stored.py [--program PROGRAM]

PROGRAM is target/bin/sluice, which `tools/build sluice` makes.
"""

import pathlib
import subprocess
import sys

sys.path.insert(0, str(pathlib.Path(__file__).resolve().parents[1]))
from programs import ROOT, add_program, parser, program_of, vectors  # noqa: E402
from sluice import sluice  # noqa: E402


def stored_sheets():
    sheets = [(case["name"].decode(), case["sheet"]) for case in vectors("sheets.jsonl")]
    return sheets + [(path.name, path.read_bytes()) for path in sorted((ROOT / "examples").glob("*.sheet"))]


def main():
    arguments = parser(__doc__)
    add_program(arguments, "sluice")
    program = program_of(arguments.parse_args(), "sluice")
    sheets = stored_sheets()
    for name, sheet in sheets:
        done = subprocess.run([program], input=sheet, capture_output=True, timeout=60, check=True)
        wanted = sluice(sheet)
        if (done.stdout, done.stderr) != (wanted, b""):
            sys.exit("tests/sluice/stored.py: %s: expected %r, got %r and %r" % (name, wanted, done.stdout, done.stderr))
    print("%d sheets printed as the enumerator prints them" % len(sheets))


main()
