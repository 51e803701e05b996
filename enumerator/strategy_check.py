"""The second route for `strategy`: from the table that `sluice` prints, what a
play table of the sheet is, whichever letters it holds.  It judges what is
printed; compared with `game.py` and `game_check.py` on drawn sheets."""

import itertools

from compiler import analyse
from game import choices, game_analysed, kept_rows, letter_choices
from game_cases import drawn_sheet
from game_check import play_fault
from limits import NO_ENTRY, SLUICE_ROWS
from reading import letter_count
from shortest_check import Printed
from sluice import lent_rows, sluice
from strategy import play_lines, strategy


class PrintedGame:
    """The game of a printed table: for each state and each choice, the read
    values in order, its lines with the next states."""

    def __init__(self, sheet_text, table_text):
        lines = [line.split() for line in sheet_text.decode("latin-1").split("\n")]
        behind = lines[0] in (["release", "1"], ["release", "2"])
        names, lows, highs, *more = lines[behind:]
        said = bool(more) and more[0][:1] in (["read"], ["set"])
        kinds = more[0] if said else ["set"] * len(names)
        self.table, self.kinds = Printed(table_text), kinds
        self.choices = list(itertools.product(*(
            [str(value) for value in range(int(low), int(high) + 1)]
            for low, high, kind in zip(lows, highs, kinds) if kind == "read")))
        self.answers = {state: {choice: {} for choice in self.choices}
                        for state in self.table.finals}
        for state, ways in self.table.ways.items():
            for values, following in ways:
                line = "%d %d %s %d" % (state, self.table.finals[state],
                                        " ".join(values), following)
                self.answers[state][self.choice_of(values)][line] = following

    def choice_of(self, values):
        return tuple(value for value, kind in zip(values, self.kinds)
                     if kind == "read")

    def holds(self, states, goals):
        """The states in which each choice has an answer into the goals."""
        return {state for state in states
                if all(goals & set(answers.values())
                       for answers in self.answers[state].values())}

    def winning(self):
        """From the states that are left, those are taken away that have a
        choice without an answer among them, and then those from which no
        final state can be forced; again and again."""
        left = set(self.answers)
        while True:
            goals = self.holds({state for state in left
                                if self.table.finals[state]}, left)
            more = self.holds(left, goals)
            while not more <= goals:
                goals |= more
                more = self.holds(left, goals)
            if goals == left:
                return left
            left = goals


def rounds_left(game, following, won):
    """The states from which some play meets no final state within as many
    letters as there are states."""
    waiting = {state for state in won if not game.table.finals[state]}
    left = waiting
    for _ in game.table.finals:
        left = {state for state in waiting if following[state] & left}
    return left


def lines_fault(game, won, lines):
    """What is wrong with the lines behind the heading, or None: one for each
    state that is won and each choice, in order, a line of the table that leads
    to a state that is won."""
    wanted = list(itertools.product(sorted(won), game.choices))
    if len(lines) != len(wanted):
        return "%d lines in place of %d" % (len(lines), len(wanted))
    following = {state: set() for state in won}
    for (state, choice), line in zip(wanted, lines):
        entry = game.answers[state][choice].get(line)
        if entry not in won:
            return "the line %r for state %d and choice %r" % (
                line, state, choice)
        following[state].add(entry)
    left = rounds_left(game, following, won)
    return "no final state from %s" % sorted(left) if left else None


def printed_fault(sheet_text, printed):
    """What is wrong with what `strategy` prints for the sheet, or None."""
    table_text = sluice(sheet_text)
    if table_text.startswith(b"refused "):
        return None if printed == table_text else "not %r" % table_text
    game = PrintedGame(sheet_text, table_text)
    won = game.winning()
    if 0 not in won:
        return None if printed == b"refused 16\n" else "not refused 16"
    heading, *lines = printed.decode("latin-1").split("\n")
    if heading.encode() + b"\n" != table_text.splitlines(True)[0]:
        return "the heading %r" % heading
    if lines.pop() != "":
        return "a last line without its end"
    return lines_fault(game, won, lines)


def drawn_plays(rng, sheet, answer):
    """The play table with any letters of the choices in some of its rows."""
    chosen = letter_choices(sheet)
    return [row if row[0] == NO_ENTRY or rng.random() < 0.5
            else [rng.choice([letter for letter, of in enumerate(chosen)
                              if of == choice
                              and answer.entries[state][letter] != NO_ENTRY])
                  for choice in range(answer.choices)]
            for state, row in enumerate(answer.play)]


def difference(rng, drawn=None):
    """A drawn sheet on which the routes differ, or None: in what is printed,
    and in what is judged of a play table with other letters."""
    text, = drawn or (drawn_sheet(rng),)
    fault = printed_fault(text, strategy(text))
    if fault:
        return text, fault
    analysis = analyse(text, SLUICE_ROWS)
    if analysis.table is None:
        return None
    sheet = analysis.sheet
    rows = lent_rows(letter_count(sheet))
    answer = game_analysed(analysis, rows, rows * len(choices(sheet)))
    if answer.refusal:
        return None
    play = drawn_plays(rng, sheet, answer)
    printed = "".join(" ".join(map(str, line)) + "\n" for line
                      in play_lines(sheet, answer._replace(play=play)))
    fault = play_fault(answer.entries, answer.finals, letter_choices(sheet),
                       kept_rows(answer.play), play)
    judged = printed_fault(text, printed.encode())
    return None if bool(fault) == bool(judged) else (text, play, fault, judged)
