"""Compares the plain C compile with a play table, or the proved one, with the stored vectors.

    python3 bench/game/check.py
    python3 bench/game/check.py archive

Builds the C program, or with `archive` the archive of `game_c` (tools/archive), as a shared
library (CC names the compiler) and makes each call of vectors/game.jsonl. The refusal, both
counts, the letters and streams, the table, the states that keep a row of the play table, and
the zeros beyond the used rows and in the work tables must agree; which letters the play table
holds is free, and the enumerator judges whether it is one.
"""

import ctypes
import hashlib
import pathlib
import sys
from collections import Counter

ROOT = pathlib.Path(__file__).resolve().parents[2]
sys.path[:0] = [str(ROOT / "bench"), str(ROOT / "enumerator")]
from calls import asks_for_archive, called, from_archive, from_sources, is_zero, lent_tables, lines, table, told  # noqa: E402
from game_check import play_fault  # noqa: E402
from reading import read  # noqa: E402
from sheet_files import PLAIN_COMPILE  # noqa: E402

# A refused sheet has no letters; its table of entries then holds so many for a row.
REFUSED_LETTERS = 3


def built(archive):
    if archive:
        return from_archive("game_c", "strategy_c")
    return from_sources("libplain_game.so", ["bench/game/plain.c"] + PLAIN_COMPILE, "plain_strategy")


def streams_of(sheet):
    refusal, found = read(sheet["sheet"].encode("latin-1"))
    return None if refusal else found[:4]


def rows_of(numbers, states, width):
    return [numbers[row * width:(row + 1) * width] for row in range(states)]


def table_fault(sheet, entries, finals, play):
    """What is wrong with the used rows, or None."""
    states, letters, choices = sheet["states"], sheet["letters"], sheet["choices"]
    used = bytes(memoryview(entries).cast("B")[:2 * states * letters])
    rows = rows_of(entries, states, letters)
    if (hashlib.sha256(used).hexdigest() if type(sheet["entries"]) is str else rows) != sheet["entries"]:
        return "entries"
    if finals[:states] != sheet["finals"]:
        return "finals"
    keeps = [kept == "+" for kept in sheet["keeps"]]
    return play_fault(rows, sheet["finals"], sheet["letter_choices"], keeps, rows_of(play, states, choices))


def difference(function, sheet, call, smallest):
    rows, length, refusal = call
    letters, choices = sheet.get("letters", REFUSED_LETTERS), sheet.get("choices", 0)
    tables = lent_tables(rows, letters, smallest)
    play = table(ctypes.c_uint16, length)
    answer = called(function, sheet["sheet"].encode("latin-1"), tables + [play])
    counts = (sheet["states"], sheet["situations"]) if refusal == 0 else (0, 0)
    if (answer.refusal, answer.states, answer.situations) != (refusal, *counts):
        return "answer %d %d %d" % (answer.refusal, answer.states, answer.situations)
    if not told(answer, letters, streams_of(sheet)):
        return "letters or streams"
    entries, finals = tables[:2]
    fault = table_fault(sheet, entries, finals, play) if refusal == 0 else None
    if fault:
        return fault
    if not (is_zero(entries, answer.states * letters) and is_zero(finals, answer.states) and is_zero(play, answer.states * choices)):
        return "numbers beyond the tables"
    return None if all(map(is_zero, tables[2:])) else "numbers in a work table"


def main(archive):
    function = built(archive)
    calls = [(sheet, call) for sheet in lines("game.jsonl") for call in sheet["calls"]]
    compared, faults = Counter(call[2] for _, call in calls), 0
    for number, (sheet, call) in enumerate(calls):
        fault = difference(function, sheet, call, number % 9)
        if fault:
            faults += 1
            print("%s with %d rows and a play table of %d: %s" % (sheet["name"], *call[:2], fault))
    print("%s: %d compiles with a play table compared (%s), %d differ" % (
        "archive" if archive else "plain C", len(calls), ", ".join("refusal %d: %d" % item for item in sorted(compared.items())), faults))
    return 1 if faults else 0


if __name__ == "__main__":
    sys.exit(main(asks_for_archive()))
