"""What the checks of calls from C share: the structs of arguments and answers, the
library that is called, and the tables that are given and lent."""

import ctypes
import json
import os
import pathlib
import subprocess
import sys

ROOT = pathlib.Path(__file__).resolve().parents[1]
sys.path.insert(0, str(ROOT / "enumerator"))
from commands import parser  # noqa: E402

KEY = 16
# What a row takes in each table of the compile: entries (one for each letter), final bytes, keys and six work tables.
WIDTHS = [(ctypes.c_uint16, None), (ctypes.c_uint8, 1), (ctypes.c_uint32, KEY)] + [(ctypes.c_uint32, 1)] * 6
KINDS = {"set": 0, "read": 1}


class Streams(ctypes.Structure):
    _fields_ = [("count", ctypes.c_size_t), ("names", ctypes.c_uint8 * 64), ("lengths", ctypes.c_uint8 * 8),
                ("lows", ctypes.c_int64 * 8), ("highs", ctypes.c_int64 * 8), ("kinds", ctypes.c_uint8 * 8)]


class Compiled(ctypes.Structure):
    _fields_ = [("refusal", ctypes.c_uint32), ("states", ctypes.c_uint32), ("situations", ctypes.c_uint32),
                ("letters", ctypes.c_uint32), ("streams", Streams)]


class Joined(ctypes.Structure):
    _fields_ = [("refusal", ctypes.c_uint32), ("states", ctypes.c_uint32), ("pairs", ctypes.c_uint32),
                ("letters", ctypes.c_uint32), ("streams", Streams)]


def library(name, parts):
    """The shared library of this name, made of sources or of an archive. CC names the compiler."""
    path = ROOT / "target" / "bench" / name
    path.parent.mkdir(parents=True, exist_ok=True)
    subprocess.run([os.environ.get("CC", "cc"), "-shared", "-o", str(path), *parts], cwd=ROOT, check=True)
    return ctypes.CDLL(str(path))


def from_archive(crate, function, answer=Compiled):
    """The function of a crate's archive, which `tools/archive` makes."""
    subprocess.run([ROOT / "tools" / "archive", crate], cwd=ROOT, check=True, stdout=subprocess.DEVNULL)
    parts = ["-Wl,--whole-archive", "target/staticlib/lib%s.a" % crate, "-Wl,--no-whole-archive"]
    found = getattr(library("lib%s.so" % crate, parts), function)
    found.restype = answer
    return found


def from_sources(name, sources, function, answer=Compiled):
    parts = ["-std=c11", "-O2", "-Wall", "-Wextra", "-Werror", "-fPIC"] + sources
    found = getattr(library(name, parts), function)
    found.restype = answer
    return found


def table(kind, count):
    """A table of ones, so that what is not cleared shows."""
    lent = (kind * count)()
    ctypes.memset(lent, 1, ctypes.sizeof(lent))
    return lent


def lent_tables(rows, letters, smallest, widths=WIDTHS):
    """The nine tables of a compile, of which the one with the number `smallest` holds exactly the rows and the others a few more."""
    tables = []
    for number, (kind, width) in enumerate(widths):
        width = letters if width is None else width
        # a table that is not the smallest holds a part of a row too
        tables.append(table(kind, rows * width if number == smallest else (rows + 1 + number) * width + width - 1))
    return tables


def with_lengths(tables):
    return [word for lent in tables for word in (lent, ctypes.c_size_t(len(lent)))]


def called(function, text, tables):
    return function(ctypes.c_char_p(text), ctypes.c_size_t(len(text)), *with_lengths(tables))


def is_zero(lent, start=0):
    rest = bytes(memoryview(lent).cast("B")[start * ctypes.sizeof(lent._type_):])
    return rest.count(0) == len(rest)


def described(names, lows, highs, kinds):
    """Streams with zeros behind them."""
    letters = b"".join(name.encode().ljust(8, b"\0") for name in names)
    return bytes(Streams(len(names), (ctypes.c_uint8 * 64)(*letters), (ctypes.c_uint8 * 8)(*map(len, names)),
                         (ctypes.c_int64 * 8)(*lows), (ctypes.c_int64 * 8)(*highs),
                         (ctypes.c_uint8 * 8)(*(KINDS[kind] for kind in kinds))))


def description(streams):
    """The struct of a stored description; places that it leaves out are zero."""
    names = b"".join(name.encode("latin-1").ljust(8, b"\0") for name in streams["names"])
    lists = [(kind * 8)(*streams[key]) for kind, key in ((ctypes.c_uint8, "lengths"), (ctypes.c_int64, "lows"),
                                                         (ctypes.c_int64, "highs"), (ctypes.c_uint8, "kinds"))]
    return Streams(streams["count"], (ctypes.c_uint8 * 64)(*names), *lists)


def given_words(given):
    """The arguments by which a call gets a given table."""
    tables = [(ctypes.c_uint16 * len(given["entries"]))(*given["entries"]), (ctypes.c_uint8 * len(given["finals"]))(*given["finals"])]
    return with_lengths(tables) + [ctypes.c_uint32(given["letters"]), description(given["streams"])]


def told(answer, letters, streams):
    """Whether the answer tells the letters and streams of the sheet, or with a refusal nothing."""
    if answer.refusal:
        return answer.letters == 0 and not any(bytes(answer.streams))
    return answer.letters == letters and bytes(answer.streams) == described(*streams)


def lines(name):
    with open(ROOT / "vectors" / name, encoding="latin-1") as vectors:
        return [json.loads(line) for line in vectors]


def asks_for_archive():
    """Whether the command that runs has the argument `archive`: the proved function is checked, and not plain C."""
    arguments = parser(sys.modules["__main__"].__doc__)
    arguments.add_argument("which", metavar="archive", nargs="?", choices=["archive"], help="check the archive of the proved function")
    return arguments.parse_args().which == "archive"
