"""The second route for `join.py`.

- Two sheets: one sheet over the joined streams with the rules of both, whose
  table and printed lines must be the same; pairs counted along the lines that
  `sluice` prints, by the values of names; and endless words, judged by their
  meaning in either sheet.
- Any two given tables: what is refused, by reading sheets that have the
  streams; pairs as the least set that steps do not leave; a table given back
  held against document 01's sentences about tables; records and endless words
  followed in both tables and in the joined one.
- Laws of joins: a table with itself, and three tables either way.
"""

import itertools

from compiler import analyse, compile_analysed
from game_check import drawn_play
from given import GivenTable
from given_cases import compiled_table, rows_of_text
from given_check import (Steps, fit_sheet, number_of_values, stream_facts,
                         table_of_sheet)
from join import analyse_join, join, join_analysed, join_sheets
from join_cases import (SHEETS, drawn_case, drawn_sheets, large_tables,
                        written_cases)
from lasso import Lasso, is_solution, streams_of as courses_of
from limits import LETTERS, NO_ENTRY, SITUATIONS, STREAMS
from reading import read
from shortest_check import Printed
from sluice import lent_rows, sluice, table_lines
from streams import streams_of

SITUATION_BOUND = 400
WORDS = 12


# ---- worked

def worked_fault():
    """A case worked out by hand with another answer, or None."""
    tables = [(name, compiled_table(first), compiled_table(second), *wanted)
              for name, first, second, *wanted in SHEETS]
    for name, left, right, refusal, pairs, rows, finals in (
            *tables, *written_cases()):
        analysis = analyse_join(left, right, SITUATIONS)
        answer = join_analysed(analysis, SITUATIONS)
        entries = [] if refusal else rows_of_text(rows) if rows else None
        if (answer.refusal != refusal
                or pairs not in (analysis.pairs, None)
                or entries not in (answer.entries, None)
                or "".join(map(str, answer.finals)) != finals):
            return name, answer
    for name, left, right, rooms, wanted in large_tables():
        analysis = analyse_join(left, right, SITUATIONS)
        found = [join_analysed(analysis, rows).refusal for rows in rooms]
        if found != wanted:
            return name, found
    return None


# ---- a table, by document 01's sentences

def after_letters(entries, states, count):
    """The states that so many letters lead to from the states."""
    for _ in range(count):
        states = {entry for state in states for entry in entries[state]
                  if entry != NO_ENTRY}
    return states


def among(entries, kept):
    """The entries that lead from kept states to kept states; the others are
    missing."""
    return [[entry if entry in kept else NO_ENTRY for entry in row]
            if state in kept else [NO_ENTRY] * len(row)
            for state, row in enumerate(entries)]


def class_count(entries, finals):
    """How many states are told apart by their final byte and by their letters,
    one after the other."""
    names = list(finals)
    while True:
        told = [(names[state], *(NO_ENTRY if entry == NO_ENTRY
                                 else names[entry] for entry in row))
                for state, row in enumerate(entries)]
        numbers = {}
        following = [numbers.setdefault(name, len(numbers)) for name in told]
        if len(numbers) == len(set(names)):
            return len(numbers)
        names = following


def order_met(entries):
    """The states in the order in which they are first met, state by state and
    letter by letter."""
    met = [0]
    for state in met:
        for entry in entries[state]:
            if entry != NO_ENTRY and entry not in met:
                met.append(entry)
    return met


def table_fault(entries, finals, total):
    """What keeps rows from being the table of the words along which they can
    be followed and meet a final state, or None."""
    states = set(range(len(entries)))
    final = {state for state in states if finals[state] == 1}
    waiting = among(entries, states - final)
    if (not entries or any(len(row) != total for row in entries)
            or len(finals) != len(entries) or not set(finals) <= {0, 1}
            or any(entry not in states and entry != NO_ENTRY
                   for row in entries for entry in row)):
        return "not well formed"
    if order_met(entries) != sorted(states):
        return "not numbered as first met"
    for state in states:
        if not after_letters(entries, {state}, 1):
            return "no way on from %d" % state
        if not any(after_letters(entries, {state}, count) & final
                   for count in range(len(entries))):
            return "no final state from %d" % state
        if state in final and after_letters(entries, {state}, 1) - final:
            return "a final state is lost after %d" % state
        if state not in final and not after_letters(waiting, {state},
                                                    len(entries)):
            return "%d is final by meaning" % state
    if class_count(entries, finals) != len(entries):
        return "states that no word tells apart"
    return None


def accepts(entries, finals, lasso):
    """Whether the table can be followed along the word and final states are
    met again and again: after as many loops as there are states, the next so
    many are those that come again."""
    state, met, loops = 0, [], len(entries)
    for letter in (*lasso.prefix, *lasso.loop * 2 * loops):
        state = entries[state][letter]
        if state == NO_ENTRY:
            return False
        met.append(finals[state])
    return any(met[len(lasso.prefix) + len(lasso.loop) * loops:])


def drawn_words(rng, entries, total):
    """Endless words: drawn ones, and some along the table."""
    words = [Lasso(tuple(rng.randrange(total) for _ in range(rng.randrange(4))),
                   tuple(rng.randrange(total)
                         for _ in range(rng.randrange(1, 4))))
             for _ in range(WORDS)]

    def ways(state):
        return [letter for letter, entry in enumerate(entries[state])
                if entry != NO_ENTRY]

    if entries:
        words += [drawn_play(rng, entries, (), 0, ways) for _ in range(WORDS)]
    return words


def letters_over(ranges):
    """How many letters streams of these ranges make."""
    total = 1
    for low, high in ranges:
        total *= high - low + 1
    return total


# ---- two sheets

class Lines:
    """The lines of a sheet that is accepted."""

    def __init__(self, text):
        names, lows, highs, *more = text.decode().split("\n")
        said = bool(more) and more[0].split()[:1] in (["read"], ["set"])
        self.rules = [line for line in more[said:] if line]
        kinds = more[0].split() if said else ["set"] * len(names.split())
        self.streams = dict(zip(names.split(), zip(lows.split(),
                                                   highs.split(), kinds)))


def single_sheet(left, right):
    """One sheet over the joined streams with the rules of both."""
    streams = {**left.streams, **right.streams}
    lines = [list(streams), *zip(*streams.values())]
    return "\n".join([*map(" ".join, lines), *left.rules,
                      *right.rules]).encode()


def printed_pairs(left, right):
    """The pairs of states along the lines of two printed tables: two lines go
    together where they have the same values by the same names."""
    def ways(table, state):
        return [(dict(zip(table.names, values)), following)
                for values, following in table.ways[state]]

    found, waiting = {(0, 0)}, [(0, 0)]
    while waiting:
        one, other = waiting.pop()
        for mine, after in ways(left, one):
            for yours, following in ways(right, other):
                agree = all(yours.get(name, value) == value
                            for name, value in mine.items())
                if agree and (after, following) not in found:
                    found.add((after, following))
                    waiting.append((after, following))
    return found


def by_single_sheet(first, second):
    """What `join` prints, and the analysis of the single sheet, which is None
    where the sheets are refused; or None if the single sheet says less than
    the two, because its own bounds are met."""
    tables = [sluice(first), sluice(second)]
    for printed in tables:
        if printed.startswith(b"refused "):
            return printed, None
    left, right = Lines(first), Lines(second)
    streams = {**left.streams, **right.streams}
    if any(left.streams.get(name, own) != own
           for name, own in right.streams.items()):
        return b"refused 17\n", None
    total = letters_over((int(low), int(high))
                         for low, high, _ in streams.values())
    if len(streams) > STREAMS or total > LETTERS:
        return b"refused 7\n", None
    if len(printed_pairs(*map(Printed, tables))) > lent_rows(total):
        return b"refused 10\n", None
    analysis = analyse(single_sheet(left, right), SITUATION_BOUND)
    if analysis.refusal or analysis.situations is None:
        return None
    compiled = compile_analysed(analysis, SITUATION_BOUND)
    lines = ([["refused", 9]] if compiled.refusal
             else table_lines(analysis.sheet, compiled))
    return "".join(" ".join(map(str, line)) + "\n"
                   for line in lines).encode(), analysis


def meaning_fault(rng, sheets, answer):
    """A word that the joined table accepts and that is no solution of both
    sheets by its meaning, or the other way round; or None.  Where the answer
    is 9 no word is accepted."""
    ranges = {**stream_facts(sheets[0]), **stream_facts(sheets[1])}
    values = list(itertools.product(*(range(low, high + 1)
                                      for low, high, _ in ranges.values())))
    for lasso in drawn_words(rng, answer.entries, len(values)):
        courses = courses_of(list(ranges), values, lasso)
        solves = all(is_solution(sheet, courses) for sheet in sheets)
        if solves != (answer.refusal == 0 and accepts(
                answer.entries, answer.finals, lasso)):
            return lasso, solves
    return None


def sheets_difference(rng, drawn=None):
    """Two drawn sheets on which the routes differ, or None."""
    texts = drawn or drawn_sheets(rng)
    found = by_single_sheet(*texts)
    if found is not None and join_sheets(*texts) != found[0]:
        return (*texts, join_sheets(*texts), found[0])
    tables = [table_of_sheet(text) for text in texts]
    if None in tables:
        return None
    answer = join(*tables, SITUATIONS)
    if answer.refusal not in (0, 9):
        return None
    fault = meaning_fault(rng, [read(text)[1] for text in texts], answer)
    if answer.refusal == 0:
        fault = (fault or law_fault(tables, answer) or table_fault(
            answer.entries, answer.finals, answer.letters))
    return (*texts, fault) if fault else None


# ---- laws

def as_given(answer):
    """A joined table as one that is given."""
    names, lows, highs, kinds = zip(*answer.streams)
    return GivenTable(tuple(entry for row in answer.entries for entry in row),
                      tuple(answer.finals), answer.letters,
                      streams_of(names, lows, highs, kinds))


def law_fault(tables, answer):
    """A compiled table joined with itself is that table; a joined table joined
    with either of its own, from either side of its streams, is itself."""
    left, right = tables
    joined = as_given(answer)
    for one, other, wanted in (
            (left, left, left), (right, right, right), (joined, left, joined),
            (joined, right, joined), (left, joined, joined),
            (joined, joined, joined)):
        again = join(one, other, SITUATIONS)
        if again.refusal or as_given(again) != wanted:
            return "a law of joins", one, other, again
    return None


def three_difference(rng, drawn=None):
    """Three drawn sheets that come to something else when the first two, or
    the last two, are joined first; or None.  The number of pairs may differ,
    and so may what is refused by it or by a name on the way."""
    texts = drawn or (*drawn_sheets(rng), *drawn_sheets(rng))[:3]
    tables = [table_of_sheet(text) for text in texts]
    if None in tables:
        return None
    first, last = (join(one, other, SITUATIONS) for one, other
                   in (tables[:2], tables[1:]))
    if first.refusal or last.refusal:
        return None
    ways = (join(as_given(first), tables[2], SITUATIONS),
            join(tables[0], as_given(last), SITUATIONS))
    if any(way.refusal in (8, 17) for way in ways):
        return None
    same = [way._replace(pairs=0) for way in ways]
    return None if same[0] == same[1] else (*texts, *ways)


# ---- any two given tables

class Pairs:
    """The pairs of two fit tables, by steps and by the values of names."""

    def __init__(self, tables, sheets):
        self.sides = [Steps(table) for table in tables]
        facts = {**stream_facts(sheets[1]), **stream_facts(sheets[0])}
        names = sheets[0].names + [name for name in sheets[1].names
                                   if name not in sheets[0].names]
        self.streams = [(name, *facts[name]) for name in names]
        values = itertools.product(*(range(facts[name][0], facts[name][1] + 1)
                                     for name in names))
        self.letters = [tuple(number_of_values(sheet, dict(zip(names, letter)))
                              for sheet in sheets) for letter in values]
        self.following, more = {}, {(0, 0)}
        while more:
            self.following.update({pair: self.all_after(pair) for pair in more})
            more = set().union(*self.following.values()) - set(self.following)

    def after(self, pair, number):
        """The pair after a joined letter, or None."""
        found = tuple(side.after(state, letter) for side, state, letter
                      in zip(self.sides, pair, self.letters[number]))
        return None if None in found else found

    def all_after(self, pair):
        return {self.after(pair, number)
                for number in range(len(self.letters))} - {None}

    def one_letter_on(self, pairs):
        return {after for pair in pairs for after in self.following[pair]}

    def both_final(self, pair):
        return all(side.given.finals[state] == 1
                   for side, state in zip(self.sides, pair))

    def is_unsettled(self):
        return any(self.both_final(pair) and not self.both_final(after)
                   for pair, afters in self.following.items()
                   for after in afters)

    def has_solution(self, start):
        """Whether from the pair one with both final can be reached that can be
        followed on for as many letters as there are pairs."""
        pairs = {start}
        for _ in self.following:
            pairs |= self.one_letter_on(pairs)
        ends = {pair for pair in pairs if self.both_final(pair)}
        for _ in self.following:
            ends = self.one_letter_on(ends)
        return bool(ends)

    def accepts(self, lasso):
        """Whether both tables can be followed along the word, and at some time
        both are final."""
        pair, met = (0, 0), self.both_final((0, 0))
        for number in (*lasso.prefix, *lasso.loop * (len(self.following) + 1)):
            pair = self.after(pair, number)
            if pair is None:
                return False
            met = met or self.both_final(pair)
        return met


def records_fault(pairs, entries):
    """What is wrong with where records lead, both in the pairs and in the
    joined table, or None: the joined table follows a letter exactly if both
    tables do and the pair that they come to has a solution."""
    solved = {pair for pair in pairs.following if pairs.has_solution(pair)}
    met, waiting = {((0, 0), 0)}, [((0, 0), 0)]
    while waiting:
        pair, state = waiting.pop()
        for number in range(len(pairs.letters)):
            after, entry = pairs.after(pair, number), entries[state][number]
            if (entry != NO_ENTRY) != (after in solved):
                return "the letter %d at %s" % (number, pair)
            if entry != NO_ENTRY and (after, entry) not in met:
                met.add((after, entry))
                waiting.append((after, entry))
    return None


def by_pairs(tables, rows):
    """The refusal, and the pairs of the tables if they are fit."""
    sheets = [fit_sheet(table) for table in tables]
    if None in sheets:
        return 11, None
    left, right = map(stream_facts, sheets)
    if any(left.get(name, own) != own for name, own in right.items()):
        return 17, None
    joined = {**left, **right}
    total = letters_over(own[:2] for own in joined.values())
    if len(joined) > STREAMS or total > LETTERS:
        return 7, None
    pairs = Pairs(tables, sheets)
    if len(pairs.following) > min(rows, SITUATIONS):
        return (10 if rows < SITUATIONS else 8), pairs
    if pairs.is_unsettled():
        return 11, pairs
    return (0 if pairs.has_solution((0, 0)) else 9), pairs


def answer_fault(rng, answer, refusal, pairs):
    """What is wrong with the answer, by the refusal and the pairs; or None."""
    if answer.refusal != refusal:
        return "refusal %d" % refusal
    if refusal:
        return None if answer == (refusal, 0, 0, 0, [], [], []) else "not zero"
    total = len(pairs.letters)
    if (answer.pairs, answer.letters, answer.states) != (
            len(pairs.following), total, len(answer.entries)):
        return "counts"
    if [tuple(stream) for stream in answer.streams] != pairs.streams:
        return "streams"
    for lasso in drawn_words(rng, answer.entries, total):
        if pairs.accepts(lasso) != accepts(answer.entries, answer.finals,
                                           lasso):
            return "the word", lasso
    return (table_fault(answer.entries, answer.finals, total)
            or records_fault(pairs, answer.entries))


def tables_difference(rng):
    """Two drawn tables on which the routes differ, or None."""
    tables = drawn_case(rng)
    rows = rng.choice((0, 1, 2, 3, 4, 6, 9, 16, SITUATIONS, SITUATIONS + 1))
    answer = join(*tables, rows)
    counted = join_analysed(analyse_join(*tables, SITUATIONS), rows)
    fault = (answer_fault(rng, answer, *by_pairs(tables, rows))
             or answer != counted and "another answer where more are counted")
    return (*tables, rows, fault) if fault else None
