"""Compares the proved `normal_form` with the stored vectors.

    python3 tests/normal/compare.py

Builds the archive of the crate `normal_c` (tools/archive), links it as a shared library
(CC names the compiler) and calls it for each line of vectors/normal.jsonl, with the
line's sheet of vectors/sheets.jsonl and a list of the line's length. The answer, every
record and what it says, the ranges of the added streams and the zeros behind the records
must agree, byte for byte, and what stands behind the list must stay as it was.

What `examples/print_normal.c` prints of each accepted sheet, from text and list alone, must
read back as the stored entries.
"""

import ctypes
import json
import os
import pathlib
import re
import struct
import subprocess
import sys
from collections import Counter

ROOT = pathlib.Path(__file__).resolve().parents[2]
sys.path.insert(0, str(ROOT / "enumerator"))
from commands import parser  # noqa: E402
from grammar import Token, constraint_readings, constraint_text, split_tokens  # noqa: E402
from normal_rows import Rows  # noqa: E402
from reading import read  # noqa: E402

ARCHIVE = ROOT / "target" / "staticlib" / "libnormal_c.a"
LIBRARY = ROOT / "target" / "tests" / "libnormal_c.so"
PROGRAM = ROOT / "target" / "tests" / "print_normal"
# Records behind the list, which the call must not touch.
BEHIND = 4


PLACES = ["kind", "relation", "stream_kind", "replaces", "left", "left_added", "left_begin", "left_end",
          "right", "right_added", "right_begin", "right_end"]


class Entry(ctypes.Structure):
    _fields_ = [(name, ctypes.c_uint16) for name in PLACES] + [("low", ctypes.c_int64), ("high", ctypes.c_int64)]


# An entry in memory: every byte belongs to a field.
ENTRY = struct.Struct("<12H2q")
assert ENTRY.size == ctypes.sizeof(Entry) == 40


class NormalForm(ctypes.Structure):
    _fields_ = [("refusal", ctypes.c_uint32), ("entries", ctypes.c_uint32), ("added", ctypes.c_uint32)]


def built():
    LIBRARY.parent.mkdir(parents=True, exist_ok=True)
    subprocess.run([ROOT / "tools" / "archive", "normal_c"], cwd=ROOT, check=True, stdout=subprocess.DEVNULL)
    subprocess.run([os.environ.get("CC", "cc"), "-shared", "-o", str(LIBRARY),
                    "-Wl,--whole-archive", str(ARCHIVE), "-Wl,--no-whole-archive"], cwd=ROOT, check=True)
    subprocess.run([os.environ.get("CC", "cc"), "-std=c11", "-O2", "-Wall", "-Wextra", "-Wpedantic", "-Werror", "-I", "include",
                    "-o", str(PROGRAM), "examples/print_normal.c", str(ARCHIVE)], cwd=ROOT, check=True)
    function = ctypes.CDLL(str(LIBRARY)).normal_form_c
    function.restype = NormalForm
    return function


def called(function, text, length):
    """The answer, the list's bytes, and whether what stands behind the list is as it was. All bytes are ones before the
    call, so that what is not written shows."""
    lent = (Entry * (length + BEHIND))()
    ctypes.memset(lent, 1, ctypes.sizeof(lent))
    answer = function(ctypes.c_char_p(text), ctypes.c_size_t(len(text)), lent, ctypes.c_size_t(length))
    content = bytes(lent)
    end = length * ENTRY.size
    return answer, content[:end], content[end:] == b"\1" * (BEHIND * ENTRY.size)


def difference(function, text, wanted):
    answer, content, untouched = called(function, text, wanted["list"])
    counts = len(wanted["entries"]), len(wanted["added"])
    if (answer.refusal, answer.entries, answer.added) != (wanted["refusal"], *counts):
        return "answer %d %d %d" % (answer.refusal, answer.entries, answer.added)
    filled, rest = content[:answer.entries * ENTRY.size], content[answer.entries * ENTRY.size:]
    if any(rest):
        return "bytes behind the records"
    if not untouched:
        return "numbers written behind the list"
    return None if answer.refusal else filled_difference(Rows(text, read(text)[1]), list(ENTRY.iter_unpack(filled)), wanted)


def filled_difference(rows, filled, wanted):
    """The same for the records of an accepted sheet."""
    if (filled, len(wanted["added"])) != rows.all():
        return "records"
    if [rows.decoded(record) for record in filled] != wanted["entries"]:
        return "what the records say"
    ranges = {(record[4] - rows.own, *record[12:]) for record in filled if record[0] > 1}
    if ranges != {(stream, *ends) for stream, ends in enumerate(wanted["added"])}:
        return "ranges of the added streams"
    return None


# ---- what the example prints


LETTERS = "abcdefghij"


def stream_name(number):
    """A name for an added stream that no sheet of the vectors has: its digits as letters."""
    return "zz" + "".join(LETTERS[int(digit)] for digit in "%06d" % number)


def stream_number(name):
    return int("".join(str(LETTERS.index(letter)) for letter in name[2:]))


def read_back(line, own):
    """The entry that a printed line is read as, in the text of the vectors."""
    tokens = [Token(stream_name(int(token.text[1:])) if token.text[0] == "#" else token.text, token.place)
              for token in split_tokens(line.split(b", #")[0], 0)]
    entry, = constraint_readings(tokens)
    return re.sub("zz[a-j]{6}", lambda name: "#%d" % (stream_number(name.group()) - own), constraint_text(entry))


def printed_difference(text, wanted):
    printed = subprocess.run([str(PROGRAM)], input=text, check=True, stdout=subprocess.PIPE).stdout.splitlines()
    own = len(read(text)[1].names)
    if [read_back(line, own) for line in printed] != wanted["entries"]:
        return "what the example prints"
    ranges = {(int(stream) - own, int(low), int(high))
              for stream, low, high in re.findall(rb"#(\d+) from (-?\d+) to (-?\d+)", b"\n".join(printed))}
    if ranges != {(stream, *ends) for stream, ends in enumerate(wanted["added"])}:
        return "the ranges that the example prints"
    return None


def lines(name):
    with open(ROOT / "vectors" / name, encoding="latin-1") as stored:
        return [json.loads(line) for line in stored]


def main():
    function = built()
    texts = {sheet["name"]: sheet["sheet"].encode("latin-1") for sheet in lines("sheets.jsonl")}
    calls = lines("normal.jsonl")
    compared, records, faults, printed = Counter(), 0, 0, set()
    for wanted in calls:
        text = texts[wanted["name"]]
        fault = difference(function, text, wanted)
        if not wanted["refusal"] and text not in printed:
            printed.add(text)
            fault = fault or printed_difference(text, wanted)
        compared[wanted["refusal"]] += 1
        records += len(wanted["entries"])
        if fault:
            faults += 1
            print("%s with a list of %d: %s" % (wanted["name"], wanted["list"], fault))
    print("normal_form: %d calls with %d entries compared (%s), %d sheets printed and read back, %d differ" % (
        len(calls), records, ", ".join("refusal %d: %d" % item for item in sorted(compared.items())), len(printed), faults))
    return 1 if faults else 0


if __name__ == "__main__":
    parser(__doc__).parse_args()
    sys.exit(main())
