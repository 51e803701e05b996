"""Writes the stored vectors as JSON Lines with sorted keys.

    python3 enumerator/write_vectors.py [DIR]

The same program always writes the same bytes.
"""

import hashlib
import json
from collections import Counter
from pathlib import Path

from carry import carry
from carry_cases import carry_cases, migrate_cases
from commands import folders
from compiler import analyse, compile_analysed
from course import course
from course_cases import course_cases
from damage import damaged_sheets
from examples import EXAMPLES
from game import choices, game_analysed, kept_rows, letter_choices, play_table
from game_cases import game_cases
from generate import (bound_sheets, counted_sheets, division_sheets,
                      large_table_sheets, random_kinds_sheets,
                      random_release_sheets, random_sheets, release_sheets)
from grammar import constraint_text
from histogram import histogram
from histogram_cases import histogram_cases
from intervals import deepest_back, deepest_reach, firsts, untils
from join import analyse_join, join_analysed, join_sheets
from join_cases import join_cases, join_sheets_cases
from limits import SITUATIONS, STEP_REFUSED
from migrate import migrate
from normal_form import entry_texts, normal_form, normal_form_of
from reading import letter_count
from record_counts import record_counts
from record_counts_cases import record_counts_cases
from replay import replay
from replay_cases import replay_cases
from shortest import shortest
from shortest_cases import shortest_cases
from sluice import sluice_output
from spellings import spelling_sheets
from step import move, table_bytes
from step_cases import step_cases
from strategy import strategy
from strategy_cases import strategy_cases

DEFAULT_DIRECTORY = Path(__file__).resolve().parent.parent / "vectors"
SEED = 1
RANDOM_SHEETS = 400
DIVISION_SHEETS = 100
RANDOM_KINDS_SHEETS = 40
RANDOM_RELEASE_SHEETS = 60
# Of the drawn sheets, one in so many has normal forms.
NORMAL_STRIDE = 3
DAMAGED_EACH = 16
STEPS = 160
DRAWN_REPLAYS = 40
LAWFUL_REPLAYS = 30
DRAWN_HISTOGRAMS = 40
LAWFUL_HISTOGRAMS = 30
# Courses along small tables and along tables of more letters.
COURSES = (140, 80)
# Of so many drawn sheets, the first so many whose course has letters.
COURSE_SHEETS = (200, 24)
GAME_SHEETS = 60
# Drawn pairs of tables, and of sheets whose tables are given.
JOINS = (100, 30)
JOINED_SHEETS = 24
CARRIES = (100, 30)
MIGRATED_SHEETS = 24
COUNTED_SHEETS = 30
# Larger tables have a digest in place of their entries.
STORED_ENTRIES = 2000
# Drawn sheets with larger tables are left out, to keep the files short.
RANDOM_ENTRIES = 600


def chosen_sheets():
    """Sheets with vectors for many row counts and with a normal form."""
    return ([(wanted.name, wanted.sheet) for wanted in EXAMPLES]
            + [(name, text) for name, _, text in bound_sheets()]
            + counted_sheets() + large_table_sheets())


def drawn_sheets():
    """Sheets with vectors for few row counts."""
    return (random_sheets(SEED, RANDOM_SHEETS)
            + [(name, text) for name, _, text in spelling_sheets()]
            + damaged_sheets(SEED, DAMAGED_EACH)
            + division_sheets(SEED, DIVISION_SHEETS)
            + random_kinds_sheets(SEED, RANDOM_KINDS_SHEETS)
            + [(name, text) for name, _, text in release_sheets()]
            + random_release_sheets(SEED, RANDOM_RELEASE_SHEETS))


def is_small(analysis):
    table = analysis.table
    return (table is None
            or len(table.entries) * len(table.entries[0]) <= RANDOM_ENTRIES)


def analysed(sheets):
    return [(name, text, analyse(text, SITUATIONS)) for name, text in sheets]


def sheet_vector(name, text, analysis):
    vector = {"name": name, "sheet": text.decode("latin-1"),
              "refusal": analysis.refusal,
              "sluice": sluice_output(analysis).decode()}
    if analysis.refusal:
        return vector
    sheet = analysis.sheet
    compiled = compile_analysed(analysis, SITUATIONS)
    counted = analysis.situations is not None
    vector.update({
        "names": sheet.names, "lows": sheet.lows, "highs": sheet.highs,
        "stream_kinds": sheet.kinds,
        "letters": letter_count(sheet),
        "untils": len(untils(sheet.constraints)),
        "firsts": len(firsts(sheet.constraints)),
        "D": deepest_reach(sheet.constraints),
        "B": deepest_back(sheet.constraints),
        "constraints": [constraint_text(constraint)
                        for constraint in sheet.constraints],
        "situations": analysis.situations if counted else ">%d" % SITUATIONS,
        "states": compiled.states, "entries": compiled.entries,
        "finals": compiled.finals})
    return vector


def row_counts(analysis, is_chosen):
    """The rows lent: exactly enough, one too few, and round numbers."""
    counts = {4096}
    if analysis.situations is not None:
        counts |= {analysis.situations - 1, analysis.situations}
    if is_chosen and not analysis.refusal:
        counts |= {0, 1, 255, 256, 4095, 4097, 65535, 2 ** 32}
        if analysis.situations is not None:
            counts.add(analysis.situations + 1)
    return sorted(counts)


def compile_vectors(name, analysis, is_chosen):
    vectors = []
    for rows in row_counts(analysis, is_chosen):
        compiled = compile_analysed(analysis, rows)
        vectors.append({"name": name, "rows": rows,
                        "refusal": compiled.refusal,
                        "states": compiled.states,
                        "situations": compiled.situations})
    return vectors


def normal_vectors(name, text, analysis):
    """Lists exactly long enough, one too short, empty and longer."""
    lengths = {0, 1000}
    if not analysis.refusal:
        enough = len(normal_form_of(analysis.sheet).entries)
        lengths |= {enough, max(0, enough - 1)}
    vectors = []
    for length in sorted(lengths):
        result = normal_form(text, length)
        vectors.append({"name": name, "list": length,
                        "refusal": result.refusal,
                        "entries": entry_texts(result.entries),
                        "added": result.added})
    return vectors


def step_vector(case):
    answer, place = move(case.table, case.letters, case.place, case.letter)
    return {"table": case.table.hex(), "letters": case.letters,
            "state": case.place.state, "letter": case.letter,
            "answer": answer,
            "place": {"before": list(case.place), "after": list(place)}}


def replay_vector(sheet, record, start):
    return {"sheet": sheet.decode("latin-1"),
            "record": record.decode("latin-1"),
            "start": None if start is None else start.decode("latin-1"),
            "printed": replay(sheet, record, start).decode()}


def histogram_vector(sheet, record):
    return {"sheet": sheet.decode("latin-1"),
            "record": record.decode("latin-1"),
            "printed": histogram(sheet, record).decode()}


def course_vector(case):
    answer = course(*case)
    return {"entries": case.entries, "finals": case.finals,
            "letters": case.letters, "streams": case.streams._asdict(),
            "state": case.state, "list": case.room, "work": case.work,
            "refusal": answer.refusal, "course": answer.list[:answer.count]}


def shortest_vector(sheet, start):
    return {"sheet": sheet.decode("latin-1"),
            "start": None if start is None else start.decode("latin-1"),
            "printed": shortest(sheet, start).decode()}


def stored_entries(entries):
    """The entries, or the digest of their bytes where they are many."""
    if len(entries) * len(entries[0]) <= STORED_ENTRIES:
        return entries
    return hashlib.sha256(table_bytes(entries)).hexdigest()


def played_table(analysis):
    """The table of the compile, also where the river can prevent a solution
    from state 0, and for each state + if it keeps a row of the play table."""
    entries = analysis.table.entries
    finals = [int(final) for final in analysis.table.finals]
    play = play_table(entries, finals, letter_choices(analysis.sheet))
    return {"states": len(entries), "situations": analysis.situations,
            "entries": stored_entries(entries), "finals": finals,
            "keeps": "".join("+" if kept else "-" for kept in kept_rows(play))}


def game_vector(case):
    """One sheet with its calls: rows, length of the play table and refusal."""
    analysis = analyse(case.sheet, SITUATIONS)
    vector = {"name": case.name, "sheet": case.sheet.decode("latin-1"),
              "calls": [(*room, game_analysed(analysis, *room).refusal)
                        for room in case.rooms]}
    if not analysis.refusal:
        sheet = analysis.sheet
        vector.update({"letters": letter_count(sheet),
                       "choices": len(choices(sheet)),
                       "letter_choices": letter_choices(sheet)})
    if analysis.table is not None:
        vector.update(played_table(analysis))
    return vector


def record_counts_vector(text):
    return {"input": text.decode("latin-1"),
            "printed": record_counts(text).decode()}


def strategy_vector(sheet):
    return {"sheet": sheet.decode("latin-1"),
            "printed": strategy(sheet).decode()}


def given_fields(given):
    return {**given._asdict(), "streams": given.streams._asdict()}


def carry_vector(case):
    """Two given tables with their calls: the length of the list and the
    refusal; and the list for all old rows."""
    answer = carry(case.old, case.new, len(case.old.finals))
    vector = {"name": case.name, "old": given_fields(case.old),
              "new": given_fields(case.new),
              "calls": [(room, carry(case.old, case.new, room).refusal)
                        for room in case.rooms]}
    if not answer.refusal:
        vector["carried"] = answer.list
    return vector


def migrate_vector(old, new):
    return {"old": old.decode("latin-1"), "new": new.decode("latin-1"),
            "printed": migrate(old, new).decode()}


def join_vector(case):
    """Two given tables with their calls: the rows and the refusal; and what the
    tables come to in enough room."""
    analysis = analyse_join(case.left, case.right, SITUATIONS)
    answer = join_analysed(analysis, SITUATIONS)
    vector = {"name": case.name, "left": given_fields(case.left),
              "right": given_fields(case.right),
              "calls": [(rows, join_analysed(analysis, rows).refusal)
                        for rows in case.rooms]}
    if not analysis.refusal:
        vector.update({"letters": analysis.letters,
                       "streams": analysis.streams})
    if analysis.pairs is not None:
        vector["pairs"] = analysis.pairs
    if not answer.refusal:
        vector.update({"states": answer.states, "finals": answer.finals,
                       "entries": stored_entries(answer.entries)})
    return vector


def join_sheets_vector(first, second):
    return {"first": first.decode("latin-1"),
            "second": second.decode("latin-1"),
            "printed": join_sheets(first, second).decode()}


def write_lines(directory, name, vectors):
    lines = [json.dumps(vector, sort_keys=True) for vector in vectors]
    (directory / name).write_text("".join(line + "\n" for line in lines))


def print_counts(title, refusals):
    counts = Counter(refusals)
    print("%s: %d" % (title, sum(counts.values())))
    print("  " + ", ".join("refusal %d: %d" % item
                           for item in sorted(counts.items())))


def main(directory):
    directory.mkdir(parents=True, exist_ok=True)
    chosen = analysed(chosen_sheets())
    drawn = [case for case in analysed(drawn_sheets()) if is_small(case[2])]
    sheets = [sheet_vector(*case) for case in chosen + drawn]
    compiles = [vector for cases, is_chosen in ((chosen, True), (drawn, False))
                for name, _, analysis in cases
                for vector in compile_vectors(name, analysis, is_chosen)]
    normals = [vector for case in chosen + drawn[::NORMAL_STRIDE]
               for vector in normal_vectors(*case)]
    steps = [step_vector(case) for case in step_cases(SEED, STEPS)]
    replays = [replay_vector(*case) for case
               in replay_cases(SEED, DRAWN_REPLAYS, LAWFUL_REPLAYS)]
    courses = [course_vector(case) for case in course_cases(SEED, *COURSES)]
    printed = [shortest_vector(*case)
               for case in shortest_cases(SEED, *COURSE_SHEETS)]
    games = [game_vector(case) for case in game_cases(SEED, GAME_SHEETS)]
    settled = [strategy_vector(sheet) for sheet in strategy_cases()]
    joins = [join_vector(case) for case in join_cases(SEED, *JOINS)]
    joined = [join_sheets_vector(*case)
              for case in join_sheets_cases(SEED, JOINED_SHEETS)]
    carries = [carry_vector(case) for case in carry_cases(SEED, *CARRIES)]
    migrated = [migrate_vector(*case)
                for case in migrate_cases(SEED, MIGRATED_SHEETS)]
    histograms = [histogram_vector(*case) for case in histogram_cases(
        SEED, DRAWN_HISTOGRAMS, LAWFUL_HISTOGRAMS)]
    figures = [record_counts_vector(text) for text
               in record_counts_cases(SEED, COUNTED_SHEETS)]
    for name, vectors in (("sheets", sheets), ("compile", compiles),
                          ("normal", normals), ("step", steps),
                          ("replay", replays), ("course", courses),
                          ("shortest", printed), ("game", games),
                          ("strategy", settled), ("join", joins),
                          ("join_sheets", joined), ("carry", carries),
                          ("migrate", migrated),
                          ("histogram", histograms),
                          ("record_counts", figures)):
        write_lines(directory, name + ".jsonl", vectors)
    print_counts("sheets", (vector["refusal"] for vector in sheets))
    print_counts("compiles", (vector["refusal"] for vector in compiles))
    print_counts("normal forms", (vector["refusal"] for vector in normals))
    print_counts("steps", (max(0, vector["answer"] - STEP_REFUSED)
                           for vector in steps))
    print("replays: %d" % len(replays))
    print_counts("courses", (vector["refusal"] for vector in courses))
    print("shortest courses of sheets: %d" % len(printed))
    print_counts("compiles with a play table", (
        refusal for vector in games for _, _, refusal in vector["calls"]))
    print("play tables of sheets: %d" % len(settled))
    print_counts("joins", (refusal for vector in joins
                           for _, refusal in vector["calls"]))
    print("joins of sheets: %d" % len(joined))
    print_counts("carries", (refusal for vector in carries
                             for _, refusal in vector["calls"]))
    print("sheets carried over: %d" % len(migrated))
    print("histograms: %d" % len(histograms))
    print("records counted: %d" % len(figures))


if __name__ == "__main__":
    main(Path(*folders(__doc__, "dir", default=DEFAULT_DIRECTORY)))
