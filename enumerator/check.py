"""A second route to the same answers, for small random sheets.

    python3 enumerator/check.py SEED COUNT [NAME ..]

Tables are compared with the meaning of ultimately periodic words, values at
single times with the courses of such words, situations with a plain listing of
all short records, and normal forms with the words extended by what the added
streams stand for.  It exits with 1 at the first
difference, and prints the smallest sheet that still differs.
"""

import itertools
import random
import sys
from collections import Counter, deque, namedtuple

from carry_check import (sheets_difference as migrate_difference,
                         tables_difference as carry_difference,
                         three_difference as handed_on_difference,
                         worked_fault as carried_fault)
from commands import add_parts, chosen_parts, parser
from course_check import difference as course_difference
from damage import damaged_sheets
from examples import EXAMPLES, example_faults
from export_check import difference as export_difference
from game_check import (sheet_difference as game_difference, table_difference,
                        worked_fault)
from generate import (bound_sheets, division_sheets, random_release_sheets,
                      random_sheets, release_sheets)
from grammar import all_subexpressions, expression_text
from histogram_check import difference as histogram_difference
from intervals import interval
from join_check import (sheets_difference, tables_difference,
                        three_difference, worked_fault as joined_fault)
from kinds_check import by_writing_again, drawn_difference, short_sheets
from lasso import (Lasso, at, course, from_times, is_solution,
                   solves_normal_form, streams_of)
from limits import NO_ENTRY, STEP_REFUSED
from meaning import value
from normal_form import entry_texts, normal_form_of
from reading import ranges, read
from record_counts_check import difference as record_counts_difference
from release_check import (by_first_line, drawn_difference as release_difference,
                           short_sheets as short_release_sheets)
from replay_check import difference as replay_difference
from shortest_check import difference as shortest_difference
from situations import explore, is_lawful, judge_of, situation
from smallest import smallest, smallest_case
from spellings import spelling_sheets
from step import step, table_bytes
from strategy_check import difference as strategy_difference
from table import (Partition, final_situations, followed_forever,
                   live_situations, live_successors, partition, same_pairs,
                   table_of)

SITUATION_BOUND = 400
RECORD_BOUND = 3000
LASSO_BOUND = 150
REPLAYS = 2000
HISTOGRAMS = 1000
COURSES = 1000
SHEET_COURSES = 500
KINDS_SHEETS = 60
RELEASE_SHEETS = 150
GAME_TABLES = 1000
GAME_SHEETS = 300
STRATEGIES = 300
JOINED_TABLES = 1000
JOINED_SHEETS = 200
JOINED_THREE = 150
CARRIED_TABLES = 1500
CARRIED_SHEETS = 150
HANDED_ON = 200
RECORD_COUNTS = 600
EXPORTS = 150
PAIR_BOUND = 150
PARTITION_BOUND = 30
NORMAL_FORM_WORDS = 4

# What is known of one sheet while it is checked.  access: for each state the
# letter numbers of one record that leads to it.
Case = namedtuple("Case", "name text sheet judge graph table access rng counts")


class Difference(Exception):
    """The two routes disagree."""


def expect(condition, case, *details):
    if not condition:
        raise Difference(case.name, case.text.decode("latin-1"), *details)


def streams_along(case, lasso):
    return streams_of(case.sheet.names, case.judge.letters, lasso)


def means_solution(case, lasso):
    return is_solution(case.sheet, streams_along(case, lasso))


def follow(entries, state, word):
    """The states met along a word after the given one, or None if an entry
    is missing."""
    states = []
    for letter in word:
        state = entries[state][letter]
        if state == NO_ENTRY:
            return None
        states.append(state)
    return states


def table_accepts(table, lasso):
    """Whether the table can be followed along the word from the start and
    final states are met again and again."""
    if table is None:
        return False
    states = follow(table.entries, 0, lasso.prefix)
    if states is None:
        return False
    state = states[-1] if states else 0
    rounds = {}
    while state not in rounds:
        rounds[state] = follow(table.entries, state, lasso.loop)
        if rounds[state] is None:
            return False
        state = rounds[state][-1]
    first, repeated = state, []
    while not repeated or state != first:
        repeated += rounds[state]
        state = rounds[state][-1]
    return any(table.finals[met] for met in repeated)


def short_lassos(letter_total, bound):
    """All words with a short prefix and loop, shorter ones first, at most as
    many as the bound."""
    found = []
    for size in itertools.count(1):
        for loop_length in range(1, size + 1):
            words = itertools.product(range(letter_total), repeat=size)
            for word in words:
                if len(found) == bound:
                    return found
                split = size - loop_length
                found.append(Lasso(word[:split], word[split:]))


def random_word(case, longest):
    return tuple(case.rng.randrange(len(case.judge.letters))
                 for _ in range(case.rng.randrange(longest + 1)))


def random_lassos(case, count):
    return [Lasso(random_word(case, 5), random_word(case, 4) or (0,))
            for _ in range(count)]


def ways(table, state):
    """The letters and next states of the entries that are not missing."""
    return [(letter, target)
            for letter, target in enumerate(table.entries[state])
            if target != NO_ENTRY]


def random_walk(case, state, longest):
    """A word that can be followed from the state for ever: a random walk
    along the table, closed where it meets a state again."""
    word, met = [], {}
    steps = case.rng.randrange(longest + 1)
    while len(word) < steps or state not in met:
        met[state] = len(word)
        letter, state = case.rng.choice(ways(case.table, state))
        word.append(letter)
    return Lasso(tuple(word[:met[state]]), tuple(word[met[state]:]))


def after(access, lasso):
    return Lasso(access + lasso.prefix, lasso.loop)


def find_lasso(start, moves, is_looping):
    """A word that leads from the node to a cycle of nodes that fulfil
    is_looping, or None.  moves gives (letter, next node) for a node."""
    paths = {start: ()}
    waiting = deque([start])
    while waiting:
        node = waiting.popleft()
        for letter, target in moves(node):
            if target not in paths:
                paths[target] = paths[node] + (letter,)
                waiting.append(target)
    looping = [node for node in paths if is_looping(node)]
    kept = followed_forever(
        looping, {node: {target for _, target in moves(node)}
                  for node in looping})
    if not kept:
        return None
    node = next(node for node in paths if node in kept)
    word, met = list(paths[node]), {}
    while node not in met:
        met[node] = len(word)
        letter, node = next(move for move in moves(node) if move[1] in kept)
        word.append(letter)
    return Lasso(tuple(word[:met[node]]), tuple(word[met[node]:]))


def parting_lasso(table, left, right):
    """A word that the table accepts from the left state and not from the
    right one, or None.  States after a final one are final, so a loop has
    only final states or none."""
    def moves(pair):
        return [(letter, (target,
                          NO_ENTRY if pair[1] == NO_ENTRY
                          else table.entries[pair[1]][letter]))
                for letter, target in ways(table, pair[0])]

    def is_looping(pair):
        return table.finals[pair[0]] and (
            pair[1] == NO_ENTRY or not table.finals[pair[1]])

    return find_lasso((left, right), moves, is_looping)


def check_words(case):
    """The table accepts a word exactly if the meaning calls it a solution."""
    lassos = (short_lassos(len(case.judge.letters), LASSO_BOUND)
              + random_lassos(case, LASSO_BOUND // 2))
    if case.table is not None:
        lassos += [random_walk(case, 0, 12) for _ in range(LASSO_BOUND // 3)]
    for lasso in lassos:
        accepted = table_accepts(case.table, lasso)
        expect(accepted == means_solution(case, lasso), case, "word", lasso)
        case.counts["words, of them solutions: %s" % accepted] += 1


def check_values(case):
    """Every value of every subexpression at a time is that of its course, and
    lies in its interval if there is one."""
    found = [(expression, interval(expression, ranges(case.sheet)))
             for expression in all_subexpressions(case.sheet.constraints)]
    for lasso in random_lassos(case, 3):
        streams = streams_along(case, lasso)
        for expression, (low, high) in found:
            values = course(expression, streams)
            for time in range(8):
                own = value(expression,
                            lambda name, when: at(streams[name], when)[0], time)
                expect(at(values, time) == (() if own is None else (own,)),
                       case, "value", expression_text(expression), lasso)
                expect(own is None or low <= own <= high,
                       case, "interval", expression_text(expression), lasso)
                case.counts["values compared, of them none: %s"
                            % (own is None)] += 1


def check_numbering(case):
    """State numbers are met in order, and a final state leads to final
    states only."""
    met = 1
    for state, row in enumerate(case.table.entries):
        expect(state < met, case, "numbering", state)
        for _, target in ways(case.table, state):
            expect(target <= met, case, "numbering", state, target)
            met = max(met, target + 1)
            expect(case.table.finals[target] or not case.table.finals[state],
                   case, "final leads to not final", state, target)
    expect(met == len(case.table.entries), case, "numbering", met)
    case.counts["tables with their numbering"] += 1


def check_pair(case, left, right):
    """Two states are told apart by a word, as the meaning confirms."""
    for one, other in ((left, right), (right, left)):
        lasso = parting_lasso(case.table, one, other)
        if lasso is not None:
            expect(means_solution(case, after(case.access[one], lasso)),
                   case, "pair", one, other, lasso)
            expect(not means_solution(case, after(case.access[other], lasso)),
                   case, "pair", one, other, lasso)
            case.counts["pairs of states told apart"] += 1
            return
    expect(False, case, "states not told apart", left, right)


def check_state(case, state):
    """A state has a solution; if it is not final, a word that can be followed
    for ever from it is none; if it is final, walks from it are solutions."""
    table, access = case.table, case.access[state]

    def moves(here):
        return ways(table, here)

    lasso = find_lasso(state, moves, lambda here: table.finals[here])
    expect(lasso is not None and means_solution(case, after(access, lasso)),
           case, "state without solution", state, lasso)
    if table.finals[state]:
        for _ in range(10):
            lasso = after(access, random_walk(case, state, 10))
            expect(means_solution(case, lasso), case, "final", state, lasso)
        case.counts["final states with walks"] += 1
    else:
        lasso = find_lasso(state, moves, lambda here: not table.finals[here])
        expect(lasso is not None
               and not means_solution(case, after(access, lasso)),
               case, "not final", state, lasso)
        case.counts["not final states with a word"] += 1


def check_missing(case):
    """After a missing entry no short word is a solution."""
    missing = [(state, letter)
               for state, row in enumerate(case.table.entries)
               for letter, entry in enumerate(row) if entry == NO_ENTRY]
    case.rng.shuffle(missing)
    for state, letter in missing[:20]:
        for lasso in short_lassos(len(case.judge.letters), 20):
            lasso = after(case.access[state] + (letter,), lasso)
            expect(not means_solution(case, lasso), case, "missing", lasso)
        case.counts["missing entries with 20 words each"] += 1


def lawful_records(case, longest):
    """All lawful records up to a length, judged from the start."""
    found = [()]
    level = [()]
    for _ in range(longest):
        level = [record + (letter,) for record in level
                 for letter in case.judge.letters
                 if is_lawful(case.judge, record + (letter,))]
        found += level
        if len(found) > RECORD_BOUND:
            return None
    return found


def check_situations(case):
    """The situations of all records up to the length of the longest record
    kept for a situation are those of the graph, and records with the same
    situation have the same situations after each letter."""
    longest = max(map(len, case.graph.records.values()))
    records = lawful_records(case, longest)
    if records is None:
        case.counts["situation counts left out, too many records"] += 1
        return
    expect({situation(case.judge, record) for record in records}
           == set(case.graph.situations), case, "situations")
    case.counts["situation counts by listing records"] += 1
    for record in records:
        here = situation(case.judge, record)
        for number, letter in enumerate(case.judge.letters):
            longer = record + (letter,)
            there = (situation(case.judge, longer)
                     if is_lawful(case.judge, longer) else None)
            expect(case.graph.successors[here].get(number) == there, case,
                   "successor", record, letter)
        case.counts["records with all their successors"] += 1


def check_partition(case):
    """Situations have one state exactly if the search of their product alone,
    without what is known of other pairs, finds no word that parts them."""
    successors = live_successors(case.graph, live_situations(case.graph))
    if len(successors) > PARTITION_BOUND:
        return
    finals = final_situations(case.graph, successors)
    first_of = partition(case.graph, successors, finals)
    nothing_known = Partition(successors, set())
    for left, right in itertools.combinations(successors, 2):
        same = same_pairs(left, right, successors, case.graph.done,
                          nothing_known) is not None
        expect(same == (first_of[left] == first_of[right]), case, "partition",
               left, right)
        case.counts["pairs of situations compared by themselves"] += 1


def extended_streams(case, normal, lasso):
    """The streams of the sheet and, for each added stream, the course of what
    it stands for."""
    streams = streams_along(case, lasso)
    return {**streams, **{"#%d" % number: course(expression, streams)
                          for number, expression in enumerate(normal.stands_for)}}


def changed(lasso, place, instead):
    """The course with another value at one time."""
    return from_times(lambda time: instead if time == place else at(lasso, time),
                      max(len(lasso.prefix), place + 1), len(lasso.loop))


def check_changes(case, normal, streams, lasso):
    """An added stream with another value anywhere, or with none, breaks some
    entry; so does one with a number in the place of none."""
    for number, (low, high) in enumerate(normal.added):
        stream = "#%d" % number
        for time in range(6):
            own = at(streams[stream], time)
            expect(all(low <= number <= high for number in own), case, "range",
                   stream, time, own)
            others = {(), (low,), (high,), (0,)} | {
                (number + more,) for number in own for more in (-1, 1)}
            for other in others - {own}:
                instead = changed(streams[stream], time, other)
                expect(not solves_normal_form(normal,
                                              {**streams, stream: instead}),
                       case, "change kept", stream, time, other, lasso)
                case.counts["changed added values that break, none before: %s"
                            % (own == ())] += 1


def check_normal_form(case):
    """A word with the added streams solves the normal form exactly if the word
    is a solution; then no added value can be another."""
    normal = normal_form_of(case.sheet)
    lassos = random_lassos(case, NORMAL_FORM_WORDS)
    if case.table is not None:
        lassos += [random_walk(case, 0, 4) for _ in range(NORMAL_FORM_WORDS)]
    for lasso in lassos:
        streams = extended_streams(case, normal, lasso)
        solves = solves_normal_form(normal, streams)
        expect(solves == means_solution(case, lasso), case, "normal form",
               entry_texts(normal.entries), lasso)
        case.counts["words in normal forms"] += 1
        if solves:
            check_changes(case, normal, streams, lasso)


def access_words(table):
    """For each state the first met word that leads to it."""
    words = {0: ()}
    for state in range(len(table.entries)):
        for letter, target in ways(table, state):
            words.setdefault(target, words[state] + (letter,))
    return words


def check_steps(case):
    """The step on the table's bytes follows its entries."""
    table = table_bytes(case.table.entries)
    total = len(case.judge.letters)
    for state, row in enumerate(case.table.entries):
        for letter, entry in enumerate(row):
            wanted = STEP_REFUSED + 12 if entry == NO_ENTRY else entry
            expect(step(table, total, state, letter) == wanted, case, "step",
                   state, letter)
            case.counts["steps along a table"] += 1


def check_table(case):
    check_numbering(case)
    check_steps(case)
    states = range(len(case.table.entries))
    pairs = list(itertools.combinations(states, 2))
    case.rng.shuffle(pairs)
    for left, right in pairs[:PAIR_BOUND]:
        check_pair(case, left, right)
    for state in states:
        check_state(case, state)
    check_missing(case)


def check_sheet(name, text, rng, counts):
    """All checks of one sheet."""
    refusal, sheet = read(text)
    if refusal:
        counts["sheets left out, refusal %d" % refusal] += 1
        return
    judge = judge_of(sheet)
    graph = explore(judge, SITUATION_BOUND)
    if graph is None:
        counts["sheets left out, more than %d situations" % SITUATION_BOUND] += 1
        return
    table = table_of(graph, len(judge.letters))
    access = {} if table is None else access_words(table)
    case = Case(name, text, sheet, judge, graph, table, access, rng, counts)
    counts["sheets, with solution: %s" % (table is not None)] += 1
    check_situations(case)
    check_partition(case)
    check_words(case)
    check_values(case)
    check_normal_form(case)
    if table is not None:
        check_table(case)


def check_refusals(seed, counts):
    """A damaged sheet meets the lowest refusal that it was damaged for, and a
    sheet with an answer worked out by hand meets that."""
    cases = [(name, int(name.split("-")[1]), text)
             for name, text in damaged_sheets(seed, 24)]
    for name, wanted, text in (cases + spelling_sheets() + bound_sheets()
                               + release_sheets()):
        if read(text)[0] != wanted:
            raise Difference(name, "refusal", read(text)[0], wanted, text)
        counts["sheets with the refusal meant"] += 1


def check_kinds(rng, counts):
    """The line of kinds, by reading the sheet and by writing it again without
    the words, and tables of sheets that differ only in kinds."""
    for text in short_sheets():
        if read(text)[0] != by_writing_again(text):
            raise Difference("kinds", text, read(text)[0],
                             by_writing_again(text))
        counts["short sheets about kinds, read and written again"] += 1
    drawn_differences("kinds", rng, counts, (
        (KINDS_SHEETS, drawn_difference,
         "sheets with kinds and without, with equal tables", 1),))


def check_releases(rng, counts):
    """The release line, by reading the sheet and by its first line alone, and
    tables of sheets of release 2 against those of release 1 that say the
    same."""
    for text in short_release_sheets():
        if read(text)[0] != by_first_line(text):
            raise Difference("release", text, read(text)[0],
                             by_first_line(text))
        counts["short sheets about releases, read and by the first line"] += 1
    drawn_differences("release", rng, counts, (
        (RELEASE_SHEETS, release_difference,
         "sheets of release 2 written again in release 1", 1),))


def check_replays(rng, counts):
    """What `replay` prints, by lines and by bytes."""
    drawn_differences("replay", rng, counts, (
        (REPLAYS, replay_difference, "records replayed by lines and by bytes",
         3),))


def check_histograms(rng, counts):
    """What `histogram` prints, by values and by letters."""
    drawn_differences("histogram", rng, counts, (
        (HISTOGRAMS, histogram_difference,
         "records counted by values and by letters", 2),))


def check_courses(rng, counts):
    """The shortest course with the fewest changes, by rows and last letters and
    by all records."""
    drawn_differences("course", rng, counts, (
        (COURSES, course_difference,
         "courses found by rows and last letters and by all records"),
        (SHEET_COURSES, shortest_difference,
         "courses of sheets found by rows and by lines of the table", 2)))


def drawn_differences(name, rng, counts, kinds):
    """Each kind: how often something is drawn, the function that compares two
    routes on it, what it compares, and where sheets are drawn how many parts of
    a case that differs are drawn: they are then made smaller."""
    for draws, difference, what, *count in kinds:
        for _ in range(draws):
            case = difference(rng)
            if case and count:
                case = smallest_case(case, difference, *count)
            if case:
                raise Difference(name, *case)
            counts[what] += 1


def check_games(rng, counts):
    """Which states the controller wins, play tables and what is printed of
    them, by sets of states, by situations, strategies and endless words."""
    fault = worked_fault()
    if fault:
        raise Difference("game", *fault)
    drawn_differences("game", rng, counts, (
        (GAME_TABLES, table_difference,
         "games of tables solved by sets and by strategies"),
        (GAME_SHEETS, game_difference,
         "games of sheets solved by states and by situations and words", 1),
        (STRATEGIES, strategy_difference,
         "play tables printed and judged by lines of the table", 1)))


def check_carries(rng, counts):
    """Going on from an old table in a new one, by sets of states and by all
    records up to a length, and by lines of printed tables."""
    fault = carried_fault()
    if fault:
        raise Difference("carry", *fault)
    drawn_differences("carry", rng, counts, (
        (CARRIED_TABLES, carry_difference,
         "tables carried over by sets of states and by all records"),
        (CARRIED_SHEETS, migrate_difference,
         "sheets carried over by states and by lines and records", 2),
        (HANDED_ON, handed_on_difference,
         "sheets carried over at once and by one between", 3)))


def check_joins(rng, counts):
    """Joins of tables and of sheets, by pairs in the order in which they are
    met, by steps and words, and by a single sheet with both sheets' rules."""
    fault = joined_fault()
    if fault:
        raise Difference("join", *fault)
    drawn_differences("join", rng, counts, (
        (JOINED_TABLES, tables_difference,
         "tables joined by pairs and by steps, records and words"),
        (JOINED_SHEETS, sheets_difference,
         "sheets joined by pairs and as a single sheet", 2),
        (JOINED_THREE, three_difference, "three sheets joined either way", 3)))


def check_record_counts(rng, counts):
    """How many records begin a solution, by the table and by listing records."""
    drawn_differences("record counts", rng, counts, (
        (RECORD_COUNTS, record_counts_difference,
         "figures found by the table and by listing records", 1),))


def check_exports(rng, counts):
    """Headers read back by their form, and sizes, against printed tables."""
    drawn_differences("export", rng, counts, (
        (EXPORTS, export_difference,
         "headers and sizes of sheets, against printed tables", 1),))


def check_examples(counts):
    """The sheets with answers worked out by hand."""
    faults = example_faults()
    if faults:
        raise Difference("examples", faults)
    counts["examples"] += len(EXAMPLES)


def check_sheets(seed, count, counts):
    """The examples and random sheets, against the meaning of words."""
    rng = random.Random(seed)
    sheets = [(wanted.name, wanted.sheet) for wanted in EXAMPLES
              if "letters" not in wanted.name]
    sheets += random_sheets(seed, count, 6) + division_sheets(seed, count, 6)
    sheets += random_release_sheets(seed, count, 6)
    for number, (name, text) in enumerate(sheets):
        try:
            check_sheet(name, text, rng, counts)
        except Difference as difference:
            raise Difference(*difference.args, *smallest_sheet(text))
        if number % 50 == 49:
            print("%d sheets checked" % (number + 1), flush=True)


def smallest_sheet(text):
    """What is told of the smallest sheet on which the routes still differ,
    where they do with another seed."""
    def fails(tried):
        try:
            check_sheet("smallest", tried, random.Random(1), Counter())
        except Difference as difference:
            return difference.args
        return None

    if not fails(text):
        return ()
    return ("the smallest that still differs:", *fails(smallest(text, fails)))


# The parts that draw, each with a generator of its own.
DRAWN_PARTS = {"kinds": check_kinds, "release": check_releases,
               "replay": check_replays, "course": check_courses,
               "game": check_games, "join": check_joins,
               "carry": check_carries, "histogram": check_histograms,
               "record-counts": check_record_counts, "export": check_exports}
PARTS = {
    "examples": lambda seed, count, counts: check_examples(counts),
    "refusals": lambda seed, count, counts: check_refusals(seed, counts),
    **{name: lambda seed, count, counts, name=name, check=check: check(
        random.Random("%s %d" % (name, seed)), counts)
       for name, check in DRAWN_PARTS.items()},
    "sheets": check_sheets,
}


def main():
    arguments = parser(__doc__)
    arguments.add_argument("seed", metavar="SEED", type=int)
    arguments.add_argument("count", metavar="COUNT", type=int,
                           help="random sheets, and as many with divisions and "
                           "of release 2")
    add_parts(arguments, PARTS)
    given = arguments.parse_args()
    counts = Counter()
    try:
        for part in chosen_parts(arguments, PARTS, given.names):
            part(given.seed, given.count, counts)
    except Difference as difference:
        print("DIFFERENCE", *difference.args, sep="\n  ")
        return 1
    print("compared, seed %d:" % given.seed)
    for what in sorted(counts):
        print("  %8d %s" % (counts[what], what))
    return 0


if __name__ == "__main__":
    sys.exit(main())
