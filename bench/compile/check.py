"""Compares the plain C compile, or the proved one, with the stored vectors.

    python3 bench/compile/check.py
    python3 bench/compile/check.py archive

Builds the C program, or with `archive` the proved compile's archive (tools/archive), as a
shared library (CC names the compiler) and calls it on each sheet of vectors/sheets.jsonl
with the rows of vectors/compile.jsonl. The refusal, both counts, the letters and streams, the
table, and the zeros beyond it and in the work tables must agree.
"""

import pathlib
import sys
from collections import Counter

sys.path.insert(0, str(pathlib.Path(__file__).resolve().parents[1]))
from calls import asks_for_archive, called, from_archive, from_sources, is_zero, lent_tables, lines, told  # noqa: E402
from sheet_files import PLAIN_COMPILE  # noqa: E402

# Where a stored compile asks for more rows than can be lent here, fewer are lent: 4,096 or more all give the same answer.
MOST_ROWS, MANY_ROWS = 65535, 5000
# A refused sheet has no letters; its table of entries then holds so many for a row.
REFUSED_LETTERS = 3


def built(archive):
    return from_archive("compile_c", "compile_c") if archive else from_sources("libplain.so", PLAIN_COMPILE, "plain_compile")


def difference(function, sheet, wanted, smallest):
    letters = sheet.get("letters", REFUSED_LETTERS)
    tables = lent_tables(wanted["rows"] if wanted["rows"] <= MOST_ROWS else MANY_ROWS, letters, smallest)
    answer = called(function, sheet["sheet"].encode("latin-1"), tables)
    if (answer.refusal, answer.states, answer.situations) != (wanted["refusal"], wanted["states"], wanted["situations"]):
        return "answer %d %d %d" % (answer.refusal, answer.states, answer.situations)
    if not told(answer, letters, [sheet.get(key) for key in ("names", "lows", "highs", "stream_kinds")]):
        return "letters or streams"
    entries, finals = tables[:2]
    used = answer.states * letters
    if answer.refusal == 0:
        if entries[:used] != [entry for row in sheet["entries"] for entry in row]:
            return "entries"
        if finals[:answer.states] != sheet["finals"]:
            return "finals"
    if not is_zero(entries, used) or not is_zero(finals, answer.states):
        return "numbers beyond the table"
    if not all(is_zero(table) for table in tables[2:]):
        return "numbers in a work table"
    return None


def main(archive):
    function = built(archive)
    sheets = {sheet["name"]: sheet for sheet in lines("sheets.jsonl")}
    compiles = lines("compile.jsonl")
    compared, faults = Counter(), 0
    for number, wanted in enumerate(compiles):
        fault = difference(function, sheets[wanted["name"]], wanted, number % 9)
        compared[wanted["refusal"]] += 1
        if fault:
            faults += 1
            print("%s with %d rows: %s" % (wanted["name"], wanted["rows"], fault))
    print("%s: %d compiles compared (%s), %d differ" % (
        "archive" if archive else "plain C", len(compiles), ", ".join("refusal %d: %d" % item for item in sorted(compared.items())), faults))
    return 1 if faults else 0


if __name__ == "__main__":
    sys.exit(main(asks_for_archive()))
