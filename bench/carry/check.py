"""Compares the plain C carrying over, or the proved one, with the stored vectors.

    python3 bench/carry/check.py
    python3 bench/carry/check.py archive

Builds the C program, or with `archive` the archive of `carry_c` (tools/archive), as a shared
library (CC names the compiler) and makes each call of vectors/carry.jsonl. The refusal and
the whole list must agree, and the given tables must be as they were. Over plain C it also runs
examples/change_over.c; over the archives tests/c/run does.
"""

import ctypes
import os
import pathlib
import subprocess
import sys
from collections import Counter

sys.path.insert(0, str(pathlib.Path(__file__).resolve().parents[1]))
from calls import ROOT, asks_for_archive, from_archive, from_sources, given_words, lines, table, with_lengths  # noqa: E402
from sheet_files import PLAIN_COMPILE  # noqa: E402

PLAIN_CARRY = ["bench/carry/plain.c", "bench/given/plain.c"]
PLAIN_STEP = ["-Iinclude", "bench/step/step_in_c.c"]
# The archives' functions that the example calls, and those of plain C in their place.
IN_PLAIN_C = {"compile_c": "plain_compile", "carry_c": "plain_carry", "advance": "advance_in_c"}


def built(archive):
    if archive:
        return from_archive("carry_c", "carry_c", ctypes.c_uint32)
    return from_sources("libplain_carry.so", PLAIN_CARRY, "plain_carry", ctypes.c_uint32)


def difference(function, case, call):
    room, refusal = call
    lent = table(ctypes.c_uint16, room)
    given = given_words(case["old"]) + given_words(case["new"])
    answer = function(*given, *with_lengths([lent]))
    wanted = case["carried"] if refusal == 0 else []
    if answer != refusal:
        return "answer %d" % answer
    if list(lent) != wanted + [0] * (room - len(wanted)):
        return "the list"
    for side, entries, finals in (("old", given[0], given[2]), ("new", given[6], given[8])):
        if list(entries) != case[side]["entries"] or list(finals) != case[side]["finals"]:
            return "the %s table is changed" % side
    return None


def example_printed():
    """What the example prints over plain C."""
    out, compiler = ROOT / "target" / "bench", os.environ.get("CC", "cc")
    names = ["-D%s=%s" % item for item in IN_PLAIN_C.items()]
    strict = [compiler, "-std=c11", "-O2", "-Wall", "-Wextra", "-Wpedantic", "-Werror", "-Iinclude"]
    subprocess.run(strict + names + ["-c", "examples/change_over.c", "-o", str(out / "change_over.o")], cwd=ROOT, check=True)
    subprocess.run([compiler, "-O2", str(out / "change_over.o"), *PLAIN_CARRY, *PLAIN_COMPILE, *PLAIN_STEP, "-o", str(out / "change_over")],
                   cwd=ROOT, check=True)
    return subprocess.run([str(out / "change_over")], capture_output=True, check=True).stdout


def example_differs():
    if example_printed() == (ROOT / "examples" / "change_over.expected").read_bytes():
        print("examples/change_over.c over plain C: prints what is expected")
        return False
    print("examples/change_over.c over plain C does not print examples/change_over.expected")
    return True


def main(archive):
    function = built(archive)
    calls = [(case, call) for case in lines("carry.jsonl") for call in case["calls"]]
    compared, faults = Counter(call[1] for _, call in calls), 0
    for case, call in calls:
        fault = difference(function, case, call)
        if fault:
            faults += 1
            print("%s with a list of %d: %s" % (case["name"], call[0], fault))
    print("%s: %d carries compared (%s), %d differ" % (
        "archive" if archive else "plain C", len(calls), ", ".join("refusal %d: %d" % item for item in sorted(compared.items())), faults))
    return 1 if faults or not archive and example_differs() else 0


if __name__ == "__main__":
    sys.exit(main(asks_for_archive()))
