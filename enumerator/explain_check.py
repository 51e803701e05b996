"""A second look at what `explain.py` tells: faults are found exactly where a
refusal holds, each at a place of the sheet; the number is that of the compile;
a smallest contradicting set has no solution, and every set of fewer rules has
one."""

import itertools

from contradiction import contradiction, longest_record
from explain import explanation, sluice_number
from faults import SHEET_FAULTS, TEXT_FAULTS
from generate import random_lines, sheet_bytes
from reading import TEXT_REFUSALS, TREE_REFUSALS, form, token_lines
from situations import explore, is_lawful, judge_of, letters
from table import live_situations

# Sets of rules tried one by one beside a smallest contradicting one.
RULES_AT_MOST = 5
SITUATIONS_AT_MOST = 3000


def place_fault(text, fault):
    """A fault whose place the sheet has not, or None."""
    lines = token_lines(text)
    if fault.line is None:
        return None
    if not 1 <= fault.line <= len(lines) + 1:
        return "line"
    if fault.token is not None and (
            fault.line > len(lines)
            or not 0 <= fault.token < len(lines[fault.line - 1])):
        return "token"
    return None if fault.what and fault.mend else "words"


def faults_fault(text):
    """Where the faults and the refusals, up to the lowest that holds, disagree,
    or None."""
    for number, holds in TEXT_REFUSALS + TREE_REFUSALS:
        sheet = form(text) if number > 3 else None
        is_met = holds(text if number <= 3 else sheet)
        found = (TEXT_FAULTS[number](text) if number in TEXT_FAULTS
                 else SHEET_FAULTS[number](sheet))
        if bool(found) != is_met:
            return "refusal %d" % number, is_met, found
        for fault in found:
            wrong = place_fault(text, fault)
            if wrong:
                return "refusal %d, %s" % (number, wrong), fault
        if is_met:
            return None
    return None


def number_fault(text):
    """Where the number explained is not that of the compile, or None."""
    told = explanation(text)
    if told.refusal != sluice_number(text) or not told.lines:
        return "number", told, sluice_number(text)
    return None


def has_solution(sheet, rules):
    chosen = [sheet.constraints[rule] for rule in rules]
    graph = explore(judge_of(sheet._replace(constraints=chosen)),
                    SITUATIONS_AT_MOST)
    return graph is None or graph.situations[0] in live_situations(graph)


def least_fault(text):
    """What is wrong with the set of rules told of a sheet without a solution,
    or None."""
    sheet = form(text)
    found = contradiction(sheet)
    if has_solution(sheet, found.rules):
        return "a set with a solution", found
    for size in range(len(found.rules)):
        for rules in itertools.combinations(range(len(sheet.constraints)),
                                            size):
            if not has_solution(sheet, rules):
                return "a smaller set", found, rules
    return longest_fault(sheet, found.rules)


def longest_fault(sheet, rules):
    """What is wrong with the longest record told, or None."""
    chosen = sheet._replace(constraints=[sheet.constraints[rule]
                                         for rule in rules])
    judge, record = judge_of(chosen), longest_record(sheet, rules)
    if record is None:
        return None
    values = letters(sheet)
    told = tuple(values[letter] for letter in record)
    if not all(is_lawful(judge, told[:length])
               for length in range(len(told) + 1)):
        return "a record that breaks a rule", told
    if any(is_lawful(judge, told + (letter,)) for letter in judge.letters):
        return "a record that can be made longer", told
    return None


def drawn_contradiction(rng):
    """A random sheet without a solution and with few rules, or None."""
    text = sheet_bytes(random_lines(rng, 4) + random_lines(rng, 4)[3:])
    sheet = form(text)
    if (sheet is None or len(sheet.constraints) > RULES_AT_MOST
            or sluice_number(text) != 9):
        return None
    return text
