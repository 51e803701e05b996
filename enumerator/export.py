"""The program `export`: the table of a sheet as a C header.

    python3 enumerator/export.py SHEET

`docs/exports.md` has the form by an example.  A refused sheet prints
`refused N` alone.
"""

from commands import print_answer
from compiler import analyse, compile_analysed
from grammar import STREAM_KINDS
from reading import letter_count, read
from sluice import lent_rows
from step import table_bytes

# A stream's kind as `include/streams.h` numbers it.
KIND_NUMBERS = {"set": 0, "read": 1}
assert set(KIND_NUMBERS) == set(STREAM_KINDS)

BEGINNING = """\
/* The table of a sheet for step.h, written by export. */
#ifndef SHEET_TABLE_H
#define SHEET_TABLE_H

#include <stdint.h>

"""
END = """\

#endif
"""


def checksum(text):
    """The CRC-32 of the bytes (polynomial 0x04C11DB7, bits taken from the
    lowest on, begun with ones, and each bit turned into the other at the end)."""
    rest = 0xFFFFFFFF
    for byte in text:
        rest ^= byte
        for _ in range(8):
            rest = rest >> 1 ^ (0xEDB88320 if rest & 1 else 0)
    return rest ^ 0xFFFFFFFF


def array(kind, name, count, rows):
    """The lines of an array: each row of elements is a line, and each element
    has a space before it and a comma behind it."""
    return (["static const %s %s[%s] = {" % (kind, name, count)]
            + ["   " + "".join(" %s," % element for element in row)
               for row in rows] + ["};"])


def export_lines(text, sheet, compiled):
    width = 2 * letter_count(sheet)
    entries = table_bytes(compiled.entries)
    rows = [entries[start:start + width]
            for start in range(0, len(entries), width)]
    lines = ["enum { SHEET_STREAMS = %d, SHEET_LETTERS = %d, SHEET_STATES = %d };"
             % (len(sheet.names), letter_count(sheet), compiled.states),
             "#define SHEET_CRC32 UINT32_C(%d)" % checksum(text), ""]
    for kind, name, elements in (
            ("char *const", "sheet_names",
             ['"%s"' % stream for stream in sheet.names]),
            ("int32_t", "sheet_lows", sheet.lows),
            ("int32_t", "sheet_highs", sheet.highs),
            ("uint8_t", "sheet_kinds",
             [KIND_NUMBERS[stream] for stream in sheet.kinds])):
        lines += array(kind, name, "SHEET_STREAMS", [elements])
    lines += array("uint8_t", "sheet_table", "2 * SHEET_STATES * SHEET_LETTERS",
                   rows)
    return lines + array("uint8_t", "sheet_finals", "SHEET_STATES",
                         [compiled.finals])


def export(text):
    """The bytes that `export` prints for the bytes of a sheet."""
    refusal, sheet = read(text)
    if not refusal:
        rows = lent_rows(letter_count(sheet))
        compiled = compile_analysed(analyse(text, rows), rows)
        refusal = compiled.refusal
    if refusal:
        return b"refused %d\n" % refusal
    lines = export_lines(text, sheet, compiled)
    return (BEGINNING + "".join(line + "\n" for line in lines) + END).encode()


if __name__ == "__main__":
    print_answer(__doc__, export, ("sheet",))
