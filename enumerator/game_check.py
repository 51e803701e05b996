"""The second route for `game.py`.

- Which states are won: the game over the situations of all lawful records,
  without the table and its final states; and on small tables all positional
  strategies of either side, one by one.
- A play table, held against the sentences of document 02 (`play_fault`).
- For the states without a row, choices of the environment that defeat every
  play of the controller (`prevention`, `prevention_fault`).
- Drawn plays along both as endless words, judged by their meaning.
"""

import itertools
from math import prod

from compiler import analyse, compile_sheet
from game import (choices, game, kept_rows, letter_choices, letters_held,
                  play_table)
from game_cases import SHEETS, drawn_sheet, sheet_text
from lasso import Lasso, is_solution, streams_of
from limits import LETTERS, NO_ENTRY, SITUATIONS
from situations import explore, judge_of, letters

SITUATION_BOUND = 300
STRATEGY_BOUND = 300
PLAYS = 3


# ---- a play table, by document 02's sentences

def unfinished(entries, finals, play, states, count):
    """The states from which some play along the play table meets no final
    state within so many letters."""
    waiting = {state for state in states if not finals[state]}
    left = waiting
    for _ in range(count):
        left = {state for state in waiting
                if any(entries[state][letter] in left for letter in play[state])}
    return left


def row_fault(entries, chosen, keeps, play, state):
    """What is wrong with the row of one state, or None."""
    row, total = play[state], max(chosen) + 1
    if len(row) != total:
        return "another number of choices"
    if not keeps[state]:
        return None if set(row) == {NO_ENTRY} else "a row that is not kept"
    for choice, letter in enumerate(row):
        if letter >= len(chosen) or chosen[letter] != choice:
            return "no letter of the choice %d" % choice
        entry = entries[state][letter]
        if entry == NO_ENTRY or not keeps[entry]:
            return "a play that comes to an end at the choice %d" % choice
    return None


def play_fault(entries, finals, chosen, keeps, play):
    """What keeps the rows from being a play table whose kept rows are these,
    or None.  "Followed from such a state, the play table must reach a final
    state within as many letters as there are states and never meet a missing
    entry, however the river plays."  "Rows of other states hold 65,535." """
    states = range(len(entries))
    if len(play) != len(entries):
        return "another number of rows"
    for state in states:
        fault = row_fault(entries, chosen, keeps, play, state)
        if fault:
            return "state %d: %s" % (state, fault)
    kept = {state for state in states if keeps[state]}
    left = unfinished(entries, finals, play, kept, len(entries))
    return "no final state from %s" % sorted(left) if left else None


# ---- the environment, where the controller is lost

def targets_of(entries, chosen, state, choice):
    return {entry for letter, entry in enumerate(entries[state])
            if chosen[letter] == choice and entry != NO_ENTRY}


def prevention(entries, chosen, keeps):
    """For each state that is not kept a choice: one that leads the controller
    towards a missing entry where there is one, else one without an answer
    into a kept state."""
    total = max(chosen) + 1
    lost = {state: None for state in range(len(entries)) if not keeps[state]}
    ended = set()
    while True:
        more = {(state, choice) for state in lost if state not in ended
                for choice in range(total)
                if targets_of(entries, chosen, state, choice) <= ended}
        if not more:
            break
        lost.update(more)
        ended |= {state for state, _ in more}
    for state in set(lost) - ended:
        lost[state] = next(
            (choice for choice in range(total)
             if not any(keeps[entry] for entry
                        in targets_of(entries, chosen, state, choice))), None)
    return lost


def reached(start, following):
    """The nodes met after the node, itself if it is met again."""
    met, waiting = set(), [start]
    while waiting:
        for node in following[waiting.pop()] - met:
            met.add(node)
            waiting.append(node)
    return met


def prevention_fault(entries, finals, chosen, keeps, lost):
    """What keeps the choices from defeating every play of the controller, or
    None: along them the controller never comes to a kept state, and no play
    meets final states again and again."""
    if None in lost.values():
        return "no choice", lost
    following = {state: targets_of(entries, chosen, state, choice)
                 for state, choice in lost.items()}
    for state, targets in following.items():
        if any(keeps[entry] for entry in targets):
            return "an answer into a kept state", state
        if finals[state] and state in reached(state, following):
            return "a final state again and again", state
    return None


# ---- the game over situations

def winning_situations(graph, chosen):
    """The situations from which the controller can go on for ever and have
    every `until` done again and again: the greatest set such that from each
    of its situations the controller can force, within some letters, a
    situation with every `until` done from which every choice has an answer
    back into the set."""
    def forces(here, goals):
        return {chosen[letter] for letter, there
                in graph.successors[here].items() if there in goals} == set(chosen)

    outer = set(graph.situations)
    while True:
        good = {here for here in graph.done if forces(here, outer)}
        while True:
            more = {here for here in outer - good if forces(here, good)}
            if not more:
                break
            good |= more
        if good == outer:
            return outer
        outer = good


def state_after(entries, numbers):
    """The state that letters lead to from the start, or None."""
    state = 0
    for number in numbers:
        state = entries[state][number]
        if state == NO_ENTRY:
            return None
    return state


def situations_fault(sheet, entries, keeps):
    """A situation that is won and leads to a state without a row, or the other
    way round; one that leads to no state is not won."""
    judge = judge_of(sheet)
    graph = explore(judge, SITUATION_BOUND)
    numbers = {letter: number for number, letter in enumerate(judge.letters)}
    won = winning_situations(graph, letter_choices(sheet))
    for here in graph.situations:
        record = graph.records[here]
        state = state_after(entries, [numbers[letter] for letter in record])
        if (here in won) != (state is not None and keeps[state]):
            return record
    return None


# ---- all positional strategies of a small table

def looping(nodes, following):
    """The nodes that are met again from themselves through the nodes alone."""
    inside = {node: following[node] & nodes for node in nodes}
    return {node for node in nodes if node in reached(node, inside)}


def won_along(states, finals, following):
    """The states from which every play is endless and meets final states again
    and again, where following holds the next states, None for a missing one."""
    bad = {state for state in states if None in following[state]}
    bad |= looping({state for state in states if not finals[state]}, following)
    return {state for state in states
            if state not in bad and not reached(state, following) & bad}


def prevented_along(states, finals, following):
    """The states from which no play is endless and meets final states again
    and again."""
    again = {state for state in states
             if finals[state] and state in reached(state, following)}
    return {state for state in states
            if state not in again and not reached(state, following) & again}


def won_by_some(entries, finals, chosen):
    """The states that some positional strategy of the controller wins; None
    where there are too many strategies."""
    states, total = range(len(entries)), max(chosen) + 1
    ways = {(state, choice): sorted(targets_of(entries, chosen, state, choice))
            or [None] for state in states for choice in range(total)}
    if prod(map(len, ways.values())) > STRATEGY_BOUND:
        return None
    won = set()
    for answers in itertools.product(*ways.values()):
        following = {state: set() for state in (*states, None)}
        for (state, _), target in zip(ways, answers):
            following[state].add(target)
        won |= won_along(states, finals, following)
    return won


def prevented_by_some(entries, finals, chosen):
    """The states that some positional strategy of the environment prevents;
    None where there are too many strategies."""
    states, total = range(len(entries)), max(chosen) + 1
    if total ** len(entries) > STRATEGY_BOUND:
        return None
    prevented = set()
    for picked in itertools.product(range(total), repeat=len(entries)):
        following = {state: targets_of(entries, chosen, state, picked[state])
                     for state in states}
        prevented |= prevented_along(states, finals, following)
    return prevented


def strategies_fault(entries, finals, chosen, keeps):
    """Where the strategies one by one give other states, or None."""
    kept = {state for state in range(len(entries)) if keeps[state]}
    won = won_by_some(entries, finals, chosen)
    prevented = prevented_by_some(entries, finals, chosen)
    if won not in (kept, None):
        return "won", won
    others = set(range(len(entries))) - kept
    return None if prevented in (others, None) else ("prevented", prevented)


def held_by_some(entries, finals, chosen, keeps):
    """For each kept state and choice the letters that some play table holds,
    by all rows of letters one by one; None where there are too many."""
    total = max(chosen) + 1
    places = [(state, choice) for state, kept in enumerate(keeps) if kept
              for choice in range(total)]
    letters_of = [[letter for letter, of in enumerate(chosen) if of == choice]
                  for _, choice in places]
    if prod(map(len, letters_of)) > STRATEGY_BOUND:
        return None
    held = {state: [[] for _ in range(total)]
            for state, kept in enumerate(keeps) if kept}
    for picked in itertools.product(*letters_of):
        play = [[NO_ENTRY] * total for _ in entries]
        for (state, choice), letter in zip(places, picked):
            play[state][choice] = letter
        if play_fault(entries, finals, chosen, keeps, play) is None:
            for (state, choice), letter in zip(places, picked):
                held[state][choice].append(letter)
    return {state: [sorted(set(found)) for found in row]
            for state, row in held.items()}


def held_fault(entries, finals, chosen, keeps):
    """Where the letters of all play tables one by one are others, or None."""
    found = held_by_some(entries, finals, chosen, keeps)
    if found in (letters_held(entries, finals, chosen), None):
        return None
    return "held", found


# ---- plays as endless words, by their meaning

def words_to_states(entries):
    """For each state the letters of a record that leads to it."""
    words = {0: ()}
    for state, row in enumerate(entries):
        for letter, entry in enumerate(row):
            if entry != NO_ENTRY:
                words.setdefault(entry, words[state] + (letter,))
    return words


def drawn_play(rng, entries, word, state, letters_at):
    """A play from the state on, after the word that leads to it: at each
    state, at one of some times by turns, one of the letters that may be
    played there.  After a missing entry the last letter is played for ever."""
    turns, met = rng.randrange(1, 4), {}
    while state != NO_ENTRY and (state, len(word) % turns) not in met:
        met[state, len(word) % turns] = len(word)
        word += (rng.choice(letters_at(state)),)
        state = entries[state][word[-1]]
    cut = met[state, len(word) % turns] if state != NO_ENTRY else len(word) - 1
    return Lasso(word[:cut], word[cut:])


def words_fault(rng, sheet, entries, play):
    """A play along the play table that is no solution by its meaning, or one
    along the choices of the environment that is; or None."""
    chosen, keeps = letter_choices(sheet), kept_rows(play)
    lost = prevention(entries, chosen, keeps)
    values = letters(sheet)

    def letters_at(state):
        if keeps[state]:
            return play[state]
        return [letter for letter, choice in enumerate(chosen)
                if choice == lost[state]]

    for state, word in words_to_states(entries).items():
        for _ in range(PLAYS):
            lasso = drawn_play(rng, entries, word, state, letters_at)
            streams = streams_of(sheet.names, values, lasso)
            if is_solution(sheet, streams) != keeps[state]:
                return "play", state, lasso
    return None


# ---- worked, drawn tables and drawn sheets

def worked_fault():
    """A sheet worked out by hand with another answer, or None."""
    for name, lines, refusal, keeps in SHEETS:
        answer = game(sheet_text(lines), SITUATIONS, SITUATIONS * LETTERS)
        found = "".join("-+"[kept] for kept in kept_rows(answer.play))
        if (answer.refusal, found) != (refusal, keeps):
            return name, lines, answer
    return None


def drawn_table(rng):
    """Entries, finals and the choice of each letter: final states stand last
    and lead to final states only, as in a compiled table."""
    rows, total = rng.randrange(1, 6), rng.choice((1, 2, 2, 3))
    chosen = [choice for choice in range(total)
              for _ in range(rng.randrange(1, 4))]
    rng.shuffle(chosen)
    first_final = rng.randrange(rows)
    missing = rng.choice((0, 0.1, 0.1, 0.3))
    entries = [[NO_ENTRY if rng.random() < missing
                else rng.randrange(first_final if row >= first_final else 0, rows)
                for _ in chosen] for row in range(rows)]
    return entries, [int(row >= first_final) for row in range(rows)], chosen


def table_fault(entries, finals, chosen, play):
    """What is wrong with a play table of a table, by all that does not look at
    a sheet; or None."""
    keeps = kept_rows(play)
    return (play_fault(entries, finals, chosen, keeps, play)
            or prevention_fault(entries, finals, chosen, keeps,
                                prevention(entries, chosen, keeps))
            or strategies_fault(entries, finals, chosen, keeps)
            or held_fault(entries, finals, chosen, keeps))


def table_difference(rng):
    """A drawn table on which the routes differ, or None."""
    table = drawn_table(rng)
    fault = table_fault(*table, play_table(*table))
    return (table, fault) if fault else None


def rows_held(length, total):
    """How many rows of so many numbers begin and end in a play table."""
    return sum(1 for end in range(total, length + 1, total))


def refused(number):
    """What is given with a refusal."""
    return number, 0, 0, [], [], 0, []


def room_fault(rng, text, analysis, play):
    """Drawn room in which a call gives something else than the compile in so
    many rows with the play table, or 16; or None."""
    total = len(choices(analysis.sheet))
    length = max(0, analysis.situations * total + rng.randrange(-1, total + 1))
    rows = analysis.situations + rng.choice((-1, 0, 1))
    plain = compile_sheet(text, min(rows, rows_held(length, total)))
    wanted = (*plain, total, play)
    if plain.refusal or not kept_rows(play)[0]:
        wanted = refused(plain.refusal or 16)
    answer = game(text, rows, length)
    return None if answer == wanted else (rows, length, answer)


def sheet_difference(rng, drawn=None):
    """A drawn sheet with kinds on which the routes differ, or None."""
    text, = drawn or (drawn_sheet(rng),)
    analysis = analyse(text, SITUATION_BOUND)
    if analysis.table is None:
        wanted = compile_sheet(text, SITUATION_BOUND).refusal
        answer = game(text, SITUATION_BOUND, SITUATION_BOUND * LETTERS)
        return None if answer == refused(wanted) else (text, answer)
    sheet, entries = analysis.sheet, analysis.table.entries
    table = (entries, [int(final) for final in analysis.table.finals],
             letter_choices(sheet))
    play = play_table(*table)
    fault = (table_fault(*table, play)
             or situations_fault(sheet, entries, kept_rows(play))
             or words_fault(rng, sheet, entries, play)
             or room_fault(rng, text, analysis, play))
    return (text, fault) if fault else None
