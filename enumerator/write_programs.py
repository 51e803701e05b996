"""Writes, from the stored vectors, what the program crates read and what they must print.

    python3 enumerator/write_programs.py VECTORS CRATES

The files are CRATES/NAME/stdin and CRATES/NAME/stdout; for a program with
arguments CRATES/NAME/args, the files of CRATES/NAME/data that they name, and stdout.
"""

import json
import os

from commands import folders
from sluice import sluice

LARGEST_WORD = 2**32 - 1
LARGEST_INPUT = 65536

# The numbers by which stored streams name their kinds.
STREAM_KIND_NUMBERS = {"set": 0, "read": 1}

# The sizes of the chunks in which the program `replay_vectors` plays a record, one after the other.
CHUNKS = (1, 2, 3, 5, 7, 64)
# Those in which the program `histogram_vectors` counts one.
HISTOGRAM_CHUNKS = (1, 3, 64)


def load(folder, name):
    with open(os.path.join(folder, name), encoding="latin-1") as lines:
        return [json.loads(line) for line in lines]


def word(number):
    """Four bytes, low first."""
    return number.to_bytes(4, "little")


def step_case(vector):
    """The bytes of one step and the line that it must print; none where a number is no 32-bit one or the state is not the place's."""
    state, steps = vector["place"]["before"]
    numbers = [vector["letters"], vector["letter"], state, steps]
    if max(numbers) > LARGEST_WORD or vector["state"] != state:
        return None
    table = bytes.fromhex(vector["table"])
    text = word(len(table)) + b"".join(word(number) for number in numbers) + table
    after = vector["place"]["after"]
    return text, "%d %d %d\n" % (vector["answer"], after[0], after[1])


def step_program(vectors):
    """The cases that fit one buffer of the program, in order."""
    text, expected = b"", ""
    for vector in vectors:
        case = step_case(vector)
        if case and len(text) + len(case[0]) <= LARGEST_INPUT:
            text += case[0]
            expected += case[1]
    return text, expected.encode()


def reader_case(vector):
    """The bytes of one sheet, and the line that is printed for it."""
    sheet = vector["sheet"].encode("latin-1")
    fields = [vector["refusal"], 0, 0, 0, 0, 0, 0]
    if vector["refusal"] == 0:
        fields[1:] = [len(vector["names"])] + [vector[key] for key in ("letters", "D", "B", "untils", "firsts")]
        kinds = [STREAM_KIND_NUMBERS[kind] for kind in vector["stream_kinds"]]
        for stream in zip(vector["names"], vector["lows"], vector["highs"], kinds):
            fields.extend(stream)
    return word(len(sheet)) + sheet, " ".join(str(field) for field in fields) + "\n"


def reader_program(vectors):
    """All sheets, in order."""
    cases = [reader_case(vector) for vector in vectors]
    return b"".join(case[0] for case in cases), "".join(case[1] for case in cases).encode()


def sheets_files(vector, keys):
    """A pair of sheets, as files and arguments, and what a program prints for it."""
    files = {"data/" + key: vector[key].encode("latin-1") for key in keys}
    return {"args": "".join(key + "\n" for key in keys).encode(), **files, "stdout": vector["printed"].encode()}


def sluice_program(vectors):
    """The first sheet, P1, and what `sluice` prints for it."""
    sheet = vectors[0]["sheet"].encode("latin-1")
    return sheet, sluice(sheet)


def replay_case(vector):
    """The bytes of one case: lengths, whether a start is given, and the texts; and what is printed once for each size of chunks."""
    sheet, record = (vector[key].encode("latin-1") for key in ("sheet", "record"))
    start = vector["start"]
    given = (start or "").encode("latin-1")
    numbers = (len(sheet), len(record), start is not None, len(given))
    return b"".join(map(word, numbers)) + sheet + record + given, vector["printed"].encode() * len(CHUNKS)


def replay_vectors_program(vectors):
    """All cases, in order."""
    cases = [replay_case(vector) for vector in vectors]
    return b"".join(case[0] for case in cases), b"".join(case[1] for case in cases)


def replay_program(vectors):
    """The first case, as files and arguments, and what `replay` prints for it."""
    first = vectors[0]
    return {"args": b"sheet\nrecord\n", "data/sheet": first["sheet"].encode("latin-1"),
            "data/record": first["record"].encode("latin-1"), "stdout": first["printed"].encode()}


def shortest_program(vectors):
    """The first case that has a state, as a file and an argument, and what `shortest` prints for it."""
    first = next(vector for vector in vectors if vector["start"])
    return {"args": b"sheet\n" + first["start"].encode() + b"\n", "data/sheet": first["sheet"].encode("latin-1"),
            "stdout": first["printed"].encode()}


def strategy_program(vectors):
    """The first case that has a play table, as a file, and what `strategy` prints for it."""
    first = next(vector for vector in vectors if not vector["printed"].startswith("refused"))
    return {"args": b"sheet\n", "data/sheet": first["sheet"].encode("latin-1"), "stdout": first["printed"].encode()}


def histogram_case(vector):
    """The bytes of one case: the length of both texts, that of the sheet, and the texts; and what is printed once for each size of chunks."""
    sheet, record = (vector[key].encode("latin-1") for key in ("sheet", "record"))
    return word(len(sheet + record)) + word(len(sheet)) + sheet + record, vector["printed"].encode() * len(HISTOGRAM_CHUNKS)


def histogram_vectors_program(vectors):
    """All cases, in order."""
    cases = [histogram_case(vector) for vector in vectors]
    return b"".join(case[0] for case in cases), b"".join(case[1] for case in cases)


def histogram_program(vectors):
    """The first case, as files and arguments, and what `histogram` prints for it."""
    first = vectors[0]
    return {"args": b"sheet\nrecord\n", "data/sheet": first["sheet"].encode("latin-1"),
            "data/record": first["record"].encode("latin-1"), "stdout": first["printed"].encode()}


# The sizes of the chunks in which each input is taken by the program on the cases of `record_counts`.
INPUT_CHUNKS = (1, 7, 65536)


def record_counts_vectors_program(vectors):
    """Every input with its length before it, and what `record_counts` prints for it, once for each size of chunks."""
    inputs = [vector["input"].encode("latin-1") for vector in vectors]
    return (b"".join(word(len(text)) + text for text in inputs),
            b"".join(vector["printed"].encode() * len(INPUT_CHUNKS) for vector in vectors))


def record_counts_program(vectors):
    """The first case with figures, and what `record_counts` prints for it."""
    first = next(vector for vector in vectors if not vector["printed"].startswith("refused"))
    return first["input"].encode("latin-1"), first["printed"].encode()


def write_files(folder, crate, files):
    for name, content in files.items():
        path = os.path.join(folder, crate, name)
        os.makedirs(os.path.dirname(path), exist_ok=True)
        with open(path, "wb") as out:
            out.write(content)


def write(folder, crate, files):
    write_files(folder, crate, dict(zip(("stdin", "stdout"), files)))


def main(vectors, crates):
    sheets = load(vectors, "sheets.jsonl")
    write(crates, "step_vectors", step_program(load(vectors, "step.jsonl")))
    write(crates, "reader_vectors", reader_program(sheets))
    write(crates, "sluice", sluice_program(sheets))
    replays = load(vectors, "replay.jsonl")
    write_files(crates, "replay", replay_program(replays))
    write(crates, "replay_vectors", replay_vectors_program(replays))
    printed = load(vectors, "shortest.jsonl")
    write_files(crates, "shortest", shortest_program(printed))
    settled = load(vectors, "strategy.jsonl")
    write_files(crates, "strategy", strategy_program(settled))
    joined = load(vectors, "join_sheets.jsonl")
    write_files(crates, "join", sheets_files(joined[0], ("first", "second")))
    migrated = load(vectors, "migrate.jsonl")
    write_files(crates, "migrate", sheets_files(migrated[0], ("old", "new")))
    histograms = load(vectors, "histogram.jsonl")
    write_files(crates, "histogram", histogram_program(histograms))
    write(crates, "histogram_vectors", histogram_vectors_program(histograms))
    figures = load(vectors, "record_counts.jsonl")
    write(crates, "record_counts", record_counts_program(figures))
    write(crates, "record_counts_vectors", record_counts_vectors_program(figures))


if __name__ == "__main__":
    main(*folders(__doc__, "vectors", "crates"))
