"""What the benchmarks on sheets share: sheets as files, with a list of their sizes.

Each sheet is NAME.sheet. The file `list` has a line for each: its name, letters, tokens
in the constraint lines, situations and states. The plain C compile counts the last two,
and a sheet that it refuses stops the run.
"""

import sys

from calls import WIDTHS, called, from_sources

PLAIN_COMPILE = ["bench/compile/plain.c", "bench/compile/read.c", "bench/minimise/plain.c"]
MOST_SITUATIONS = 4096


def sheet(streams, constraints):
    """The text of a sheet from (name, low, high), or with a kind behind them, for each stream."""
    return "\n".join([" ".join(map(str, line)) for line in zip(*streams)] + constraints) + "\n"


def letters_of(text):
    lows, highs = ([int(word) for word in line.split()] for line in text.split("\n")[1:3])
    count = 1
    for low, high in zip(lows, highs):
        count *= high - low + 1
    return count


def tokens_of(text):
    lines = [line for line in text.split("\n")[3:] if line.split()[:1] not in (["read"], ["set"])]
    return sum(len(line.replace("(", " ( ").replace(")", " ) ").split()) for line in lines)


def compiled(function, text, letters):
    tables = [(kind * (MOST_SITUATIONS * (width or letters)))() for kind, width in WIDTHS]
    return called(function, text.encode(), tables)


def write_sheets(directory, sheets):
    directory.mkdir(parents=True, exist_ok=True)
    function = from_sources("libplain.so", PLAIN_COMPILE, "plain_compile")
    lines = []
    for name, text in sheets:
        letters = letters_of(text)
        answer = compiled(function, text, letters)
        if answer.refusal:
            sys.exit("%s is refused by %d" % (name, answer.refusal))
        (directory / (name + ".sheet")).write_text(text)
        lines.append("%s %d %d %d %d\n" % (name, letters, tokens_of(text), answer.situations, answer.states))
    (directory / "list").write_text("".join(lines))
