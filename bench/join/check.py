"""Compares the plain C join, or the proved one, with the stored vectors.

    python3 bench/join/check.py
    python3 bench/join/check.py archive

Builds the C program, or with `archive` the archive of `join_c` (tools/archive), as a shared
library (CC names the compiler) and makes each call of vectors/join.jsonl. The refusal, both
counts, the letters and streams, the table, and the zeros beyond the used rows and in the work
tables must agree, and the given tables must be as they were.
"""

import ctypes
import hashlib
import pathlib
import sys
from collections import Counter

sys.path.insert(0, str(pathlib.Path(__file__).resolve().parents[1]))
from calls import Joined, WIDTHS, asks_for_archive, from_archive, from_sources, given_words, is_zero, lent_tables, lines, told, with_lengths  # noqa: E402

PLAIN_JOIN = ["bench/join/plain.c", "bench/given/plain.c", "bench/minimise/plain.c"]
# A row takes one number in the keys.
JOIN_WIDTHS = WIDTHS[:2] + [(ctypes.c_uint32, 1)] + WIDTHS[3:]
# Where no joined letters come about, the table of entries holds so many for a row.
REFUSED_LETTERS = 3


def built(archive):
    if archive:
        return from_archive("join_c", "join_c", Joined)
    return from_sources("libplain_join.so", PLAIN_JOIN, "plain_join", Joined)


def table_fault(case, entries, finals):
    """What is wrong with the used rows, or None."""
    states, letters = case["states"], case["letters"]
    used = bytes(memoryview(entries).cast("B")[:2 * states * letters])
    rows = [entries[row * letters:(row + 1) * letters] for row in range(states)]
    if (hashlib.sha256(used).hexdigest() if type(case["entries"]) is str else rows) != case["entries"]:
        return "entries"
    return None if finals[:states] == case["finals"] else "finals"


def difference(function, case, call, smallest):
    rows, refusal = call
    letters = case.get("letters", REFUSED_LETTERS)
    tables = lent_tables(rows, letters, smallest, JOIN_WIDTHS)
    given = given_words(case["left"]) + given_words(case["right"])
    answer = function(*given, *with_lengths(tables))
    counts = (case["states"], case["pairs"]) if refusal == 0 else (0, 0)
    if (answer.refusal, answer.states, answer.pairs) != (refusal, *counts):
        return "answer %d %d %d" % (answer.refusal, answer.states, answer.pairs)
    if not told(answer, letters, list(zip(*case.get("streams", [])))):
        return "letters or streams"
    for side, entries, finals in (("left", given[0], given[2]), ("right", given[6], given[8])):
        if list(entries) != case[side]["entries"] or list(finals) != case[side]["finals"]:
            return "the %s table is changed" % side
    entries, finals = tables[:2]
    fault = table_fault(case, entries, finals) if refusal == 0 else None
    if fault:
        return fault
    if not (is_zero(entries, answer.states * letters) and is_zero(finals, answer.states)):
        return "numbers beyond the table"
    return None if all(map(is_zero, tables[2:])) else "numbers in a work table"


def main(archive):
    function = built(archive)
    calls = [(case, call) for case in lines("join.jsonl") for call in case["calls"]]
    compared, faults = Counter(call[1] for _, call in calls), 0
    for number, (case, call) in enumerate(calls):
        fault = difference(function, case, call, number % 9)
        if fault:
            faults += 1
            print("%s with %d rows: %s" % (case["name"], call[0], fault))
    print("%s: %d joins compared (%s), %d differ" % (
        "archive" if archive else "plain C", len(calls), ", ".join("refusal %d: %d" % item for item in sorted(compared.items())), faults))
    return 1 if faults else 0


if __name__ == "__main__":
    sys.exit(main(asks_for_archive()))
