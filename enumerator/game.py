"""Can the keeper force it? (document 02, S-7): from which states of a sheet's
table the keeper, the controller, can make every endless play a solution
against the river, the environment; and a play table.

A game is, for each state and each choice of the environment, the set of the
states that the controller can lead to: `moves[state][choice]`.
"""

import itertools
from collections import namedtuple

from compiler import analyse, compile_analysed
from limits import NO_ENTRY, SITUATIONS
from situations import letters

# The compile with a play table.  choices: their number.  play: a row of the
# play table for each state.  With a refusal all is 0 and empty.
GameAnswer = namedtuple(
    "GameAnswer", "refusal states situations entries finals choices play")


def read_values(sheet, letter):
    return tuple(value for value, kind in zip(letter, sheet.kinds)
                 if kind == "read")


def choices(sheet):
    """"Choices are numbered as letters are, over the read streams alone;
    without any there is one choice." """
    return list(itertools.product(*(
        range(low, high + 1) for low, high, kind
        in zip(sheet.lows, sheet.highs, sheet.kinds) if kind == "read")))


def letter_choices(sheet):
    """For each letter the number of the choice that it has."""
    numbers = {choice: number for number, choice in enumerate(choices(sheet))}
    return [numbers[read_values(sheet, letter)] for letter in letters(sheet)]


def moves_of(entries, chosen):
    """The game of a table; chosen holds the choice of each letter."""
    moves = [[set() for _ in range(max(chosen) + 1)] for _ in entries]
    for sets, row in zip(moves, entries):
        for choice, entry in zip(chosen, row):
            if entry != NO_ENTRY:
                sets[choice].add(entry)
    return moves


def is_answered(sets, goals):
    """Whether the controller can answer every choice with a way to a goal:
    "the river gives all read values, any in range, and then the keeper gives
    the set values"."""
    return all(not targets.isdisjoint(goals) for targets in sets)


def safe_states(moves):
    """The states from which the controller can go on for ever: the greatest
    set in which every choice is answered by a way back into it."""
    safe = set(range(len(moves)))
    while True:
        lost = {state for state in safe if not is_answered(moves[state], safe)}
        if not lost:
            return safe
        safe -= lost


def letters_needed(moves, finals):
    """For each state from which the controller can force a solution, the
    fewest letters within which it can force a final state from which it can
    go on for ever.  A final state leads to final states only."""
    reached = {state for state in safe_states(moves) if finals[state]}
    needed = dict.fromkeys(reached, 0)
    for count in range(1, len(moves) + 1):
        more = {state for state in range(len(moves))
                if state not in reached and is_answered(moves[state], reached)}
        if not more:
            break
        needed.update(dict.fromkeys(more, count))
        reached |= more
    return needed


def is_nearer(needed, state, entry):
    """Whether the entry may be played in the state: it needs fewer letters,
    or none as the state itself, so that no play loops before a final state."""
    return entry in needed and needed[entry] <= max(needed[state] - 1, 0)


def play_row(row, chosen, needed, state):
    """"for each such state and each choice of the river, one letter with the
    values chosen"; "Which letter it holds is free beyond this": here it is
    the first one."""
    return [next(letter for letter, entry in enumerate(row)
                 if chosen[letter] == choice
                 and is_nearer(needed, state, entry))
            for choice in range(max(chosen) + 1)]


def play_table(entries, finals, chosen):
    """"Rows of other states hold 65,535." """
    needed = letters_needed(moves_of(entries, chosen), finals)
    others = [NO_ENTRY] * (max(chosen) + 1)
    return [play_row(row, chosen, needed, state) if state in needed else others
            for state, row in enumerate(entries)]


def letters_held(entries, finals, chosen):
    """For each state that keeps a row and each choice the letters that some
    play table holds: those that lead to a state from which a final one can be
    forced without coming back."""
    moves = moves_of(entries, chosen)
    needed = letters_needed(moves, finals)
    held = {}
    for state in needed:
        without = list(moves)
        if not finals[state]:
            without[state] = [set() for _ in moves[state]]
        goals = letters_needed(without, finals)
        held[state] = [[letter for letter, entry in enumerate(entries[state])
                        if chosen[letter] == choice and entry in goals]
                       for choice in range(len(moves[state]))]
    return held


def kept_rows(play):
    """For each state whether it keeps a row of the play table."""
    return [row[0] != NO_ENTRY for row in play]


def game_analysed(analysis, rows, length):
    """The compile of an analysis with tables of which the smallest holds the
    given rows, and a play table of the given length.  "The play table, one
    number a choice in each row, is among the lent tables of 8 and 10."
    "Turned away: 16, exactly when the river can prevent a solution from state
    0, after the compile's own numbers; every lent table is then zero." """
    sheet = analysis.sheet
    if sheet is not None:
        rows = min(rows, length // len(choices(sheet)))
    compiled = compile_analysed(analysis, rows)
    refusal, play = compiled.refusal, []
    if not refusal:
        play = play_table(compiled.entries, compiled.finals,
                          letter_choices(sheet))
        refusal = 0 if kept_rows(play)[0] else 16
    if refusal:
        return GameAnswer(refusal, 0, 0, [], [], 0, [])
    return GameAnswer(*compiled, len(choices(sheet)), play)


def game(text, rows, length):
    """The compile of a sheet's bytes with a play table of the given length."""
    return game_analysed(analyse(text, min(rows, SITUATIONS)), rows, length)
