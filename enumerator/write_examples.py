"""Writes what `sluice` prints for each example sheet, what `join` and
`migrate` print for two of them, and what `export` prints for that of
`examples/cabinet.c`.

    python3 enumerator/write_examples.py SHEETS FOLDER

For SHEETS/NAME.sheet the file is FOLDER/NAME.table.
"""

import os

from commands import folders
from export import export
from join import join_sheets
from migrate import migrate
from sluice import sluice

# The file that is written, what prints it, and the names of its sheets.
PRINTED = (("weirs.joined", join_sheets, "upper-weir", "lower-weir"),
           ("timer.migrated", migrate, "timer", "timer-two"),
           ("cabinet.h", export, "cabinet"))


def content(sheets, name):
    with open(os.path.join(sheets, name), "rb") as text:
        return text.read()


def write(folder, name, printed):
    with open(os.path.join(folder, name), "wb") as out:
        out.write(printed)


def main(sheets, folder):
    os.makedirs(folder, exist_ok=True)
    for name in sorted(os.listdir(sheets)):
        stem, ending = os.path.splitext(name)
        if ending == ".sheet":
            write(folder, stem + ".table", sluice(content(sheets, name)))
    for name, printed, *stems in PRINTED:
        texts = [content(sheets, stem + ".sheet") for stem in stems]
        write(folder, name, printed(*texts))


if __name__ == "__main__":
    main(*folders(__doc__, "sheets", "folder"))
