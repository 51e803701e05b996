"""The second route for `record_counts`: records listed one by one and judged by
the situations of the sheet; compared with `record_counts.py` on drawn sheets."""

from generate import random_kinds_sheets, random_sheets
from reading import letter_count, read
from record_counts import record_counts
from replay_check import number_of
from situations import explore, is_lawful, judge_of, situation
from sluice import lent_rows, sluice
from table import final_situations, live_situations, live_successors

MOST_RECORDS = 400


def listed(judge, live, length):
    """All records of each length up to the given one that begin a solution, or
    None where they are too many: lawful ones with a situation that has a
    continuation."""
    levels = [[()]]
    for _ in range(length):
        levels.append([record + (letter,) for record in levels[-1]
                       for letter in judge.letters
                       if is_lawful(judge, record + (letter,))
                       and situation(judge, record + (letter,)) in live])
        if len(levels[-1]) > MOST_RECORDS:
            return None
    return levels


def counts_by_records(sheet_text, length):
    """What is printed of an accepted sheet, or None where its records are too
    many."""
    _, sheet = read(sheet_text)
    judge = judge_of(sheet)
    graph = explore(judge, lent_rows(letter_count(sheet)))
    live = live_situations(graph)
    finals = final_situations(graph, live_successors(graph, live))
    levels = listed(judge, live, length)
    if levels is None:
        return None
    return "".join("%d %d %d\n" % (
        letters, len(level), sum(situation(judge, record) in finals for record in level))
        for letters, level in enumerate(levels)).encode()


def by_records(text):
    """What is printed for the bytes read, the line before the sheet told by its
    digits, or None where the records are too many."""
    place = text.find(b"\n")
    line, sheet_text = (text, b"") if place < 0 else (text[:place], text[place + 1:])
    table_text = sluice(sheet_text)
    refusal = table_text if table_text.startswith(b"refused ") else None
    if refusal in (b"refused 1\n", b"refused 2\n"):
        return refusal
    length = number_of(line.strip(b" "))
    if length is None or length < 0:
        return b"refused 3\n"
    if refusal:
        return refusal
    return b"refused 19\n" if length > 64 else counts_by_records(sheet_text, length)


def drawn_case(rng):
    """A drawn input, and what is printed for it by the second route: inputs whose
    records are too many to list are drawn anew."""
    while True:
        draw = rng.choice((random_sheets, random_kinds_sheets))
        line = rng.choice((b"0", b"1", b"2", b"3", b"3", b"4", b" 2", b"x", b"-1", b"02", b"65", b"2\r"))
        text = line + b"\n" + draw(rng.randrange(10**6), 1)[0][1]
        wanted = by_records(text)
        if wanted is not None:
            return text, wanted


def difference(rng, drawn=None):
    """A drawn case on which the two routes differ, or None."""
    text, wanted = (*drawn, by_records(*drawn)) if drawn else drawn_case(rng)
    if wanted in (None, record_counts(text)):
        return None
    return text, wanted, record_counts(text)
