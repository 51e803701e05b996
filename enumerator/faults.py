"""What keeps a sheet from being read, with the place and how to mend it:
every fault of one of refusals 1 to 7.

`reading.py` says whether a refusal holds; the functions here say where, and
give an empty list exactly where it does not (`explain_check.py`).
"""

import difflib
import re
from collections import namedtuple

import limits
from form_faults import EMPTY_LINE, Fault, line_fault, odd_integer, odd_name
from grammar import (RESERVED, STREAM_KINDS, Binary, all_subexpressions,
                     bracket_levels, expression_text, has_integer_form,
                     has_name_form, split_lines)
from intervals import back, firsts, interval, reach, untils
from reading import (kinds_and_constraints, letter_count, ranges,
                     release_and_rest, says_release, token_lines)

# A line with its number from 1 and its tokens.
Line = namedtuple("Line", "number tokens")

BYTE_NAMES = {0: "the byte 0", 9: "a tab", 13: "a carriage return",
              127: "the byte 127"}
# The refusals and what document 01 and `docs/sheets.md` call them.
TITLES = {
    1: "too many bytes, or a byte that has no place in a sheet",
    2: "too many names, rules, tokens or open brackets",
    3: "not of the form of a sheet",
    4: "a name given twice, reserved or unknown",
    5: "an integer too large, or a lowest value above the highest",
    6: "an expression could leave ±1,000,000,000",
    7: "too many letters, untils or firsts, or rules that look too far",
    8: "more than 4,096 situations",
    9: "no solution",
    10: "more situations than the rows lent",
}


def numbered(number):
    """The number with commas, as the documents write it."""
    return format(number, ",")


def counted(number, noun):
    """The number with a noun, which is given for one."""
    return "%s %s%s" % (numbered(number), noun, "" if number == 1 else "s")


def sheet_lines(text):
    """The lines from the names on, with their numbers in the file."""
    lines = [Line(number, tokens)
             for number, tokens in enumerate(token_lines(text), 1)]
    return lines[1:] if lines and says_release(lines[0].tokens) else lines


def constraint_lines(lines):
    """Those of the constraints."""
    kinds, _ = kinds_and_constraints([line.tokens for line in lines])
    return lines[3 if kinds is None else 4:]


def at(token, what, mend):
    """The fault of a token."""
    line, place = token.place
    return Fault(line + 1, place, what, mend)


# ---- refusal 1

def byte_faults(text):
    found = []
    if len(text) > limits.SHEET_BYTES:
        found.append(Fault(None, None, "%s bytes, and %s are allowed" % (
            numbered(len(text)), numbered(limits.SHEET_BYTES)),
            "Shorten the sheet: single spaces, shorter names, fewer rules."))
    for number, line in enumerate(text.split(b"\n"), 1):
        for column, byte in enumerate(line, 1):
            if not 32 <= byte <= 126:
                found.append(Fault(
                    number, None, "%s, the line's byte %d" % (
                        BYTE_NAMES.get(byte, "the byte %d, which is no ASCII "
                                       "sign" % byte), column),
                    byte_mend(byte)))
    return found


def byte_mend(byte):
    if byte == 9:
        return "Write spaces."
    if byte == 13:
        return "End lines with byte 10 alone (`tr -d '\\r'` takes it out)."
    return "Take it out: only spaces and the signs 33 to 126 may stand here."


# ---- refusal 2

def size_faults(text):
    lines = sheet_lines(text)
    further = constraint_lines(lines)
    found = []
    if lines and len(lines[0].tokens) > limits.STREAMS:
        found.append(at(lines[0].tokens[limits.STREAMS],
                        "%s in the line of names, and %d are allowed" % (
                            counted(len(lines[0].tokens), "token"),
                            limits.STREAMS),
                        "Split the sheet, or take out a stream that follows "
                        "from others."))
    if len(further) > limits.CONSTRAINTS:
        found.append(Fault(further[limits.CONSTRAINTS].number, None,
                           "%s, and %d are allowed" % (
                               counted(len(further), "rule"),
                               limits.CONSTRAINTS),
                           "Join rules with `and`, or split the sheet."))
    return found + token_faults(further) + bracket_faults(further)


def token_faults(further):
    tokens = [token for line in further for token in line.tokens]
    if len(tokens) <= limits.CONSTRAINT_TOKENS:
        return []
    return [at(tokens[limits.CONSTRAINT_TOKENS],
               "%s in the rules, and %s are allowed; this is the first over" % (
                   counted(len(tokens), "token"),
                   numbered(limits.CONSTRAINT_TOKENS)),
               "Say the same with fewer words, or split the sheet.")]


def bracket_faults(further):
    """For each line the first bracket that is one too many."""
    found = []
    for line in further:
        for token, level in zip(line.tokens, bracket_levels(line.tokens)):
            if token.text == "(" and level + 1 > limits.BRACKET_EXCESS:
                found.append(at(token, "more than %d brackets open"
                                % limits.BRACKET_EXCESS,
                                "Take out brackets round single names and "
                                "integers, or make two rules of it."))
                break
    return found


# ---- refusal 3

def form_faults(text):
    """For each line its first fault of form, for the three header lines and
    that of kinds every one."""
    lines = sheet_lines(text)
    if len(lines) < 3:
        missing = ("the line of names", "the lowest values",
                   "the highest values")[len(lines)]
        return release_faults(text) + [
            Fault(len(split_lines(text)) + 1, None,
                  "the sheet ends before " + missing,
                  "A sheet begins with a line of names, one of lowest and one "
                  "of highest values.")]
    names, lows, highs = lines[:3]
    found = release_faults(text) + name_line_faults(names)
    for line, what in ((lows, "lowest"), (highs, "highest")):
        found += value_line_faults(line, len(names.tokens), what)
    kinds, _ = kinds_and_constraints([line.tokens for line in lines])
    if kinds is not None:
        found += kind_line_faults(lines[3], len(names.tokens))
    for line in constraint_lines(lines):
        fault = line_fault(line.number, line.tokens)
        found += [fault] if fault else []
    return found


def release_faults(text):
    """A release that there is not (document 02, S-11)."""
    lines = token_lines(text)
    if release_and_rest(lines)[0] in (1, 2):
        return []
    return [at(lines[0][1], "no release of sheets", "Write `release 1` or "
               "`release 2`, or leave the line out, which is release 1.")]


def name_line_faults(line):
    if not line.tokens:
        return [Fault(line.number, None, *EMPTY_LINE)]
    return [at(token, *odd_name(token.text)) for token in line.tokens
            if not has_name_form(token.text)]


def count_fault(line, count, noun):
    """A line that should have one word for each name and has not."""
    if len(line.tokens) == count:
        return []
    last = line.tokens[count] if len(line.tokens) > count else None
    what = "%s for %s" % (counted(len(line.tokens), noun),
                          counted(count, "name"))
    mend = "Write one for each name, in their order."
    return [at(last, what, mend) if last else
            Fault(line.number, None, what, mend)]


def value_line_faults(line, count, which):
    if not line.tokens:
        return [Fault(line.number, None, *EMPTY_LINE)]
    found = [at(token, *odd_integer(token.text)) for token in line.tokens
             if not has_integer_form(token.text)]
    return found + count_fault(line, count, which + " value")


def kind_line_faults(line, count):
    found = [at(token, "not one of `read` and `set`",
                "A line that begins with one of them has one of the two for "
                "each name.")
             for token in line.tokens if token.text not in STREAM_KINDS]
    return found + count_fault(line, count, "kind")


# ---- refusals 4 and 5: well-formed sheets, so each token's form says what it is

def used_names(text):
    """The tokens of the constraints that are names."""
    return [token for line in constraint_lines(sheet_lines(text))
            for token in line.tokens
            if has_name_form(token.text) and token.text not in RESERVED]


def name_faults(text):
    given, found = set(), []
    for token in sheet_lines(text)[0].tokens:
        if token.text in RESERVED:
            found.append(at(token, "a reserved word as a name",
                            "Rename the stream. Reserved are: %s."
                            % ", ".join(RESERVED)))
        if token.text in given:
            found.append(at(token, "a name given twice",
                            "Rename one of the two, or take out one with its "
                            "values."))
        given.add(token.text)
    return found + [at(token, "no stream has this name",
                       unknown_mend(token.text, sorted(given)))
                    for token in used_names(text) if token.text not in given]


def unknown_mend(name, given):
    close = difflib.get_close_matches(name, given, 1)
    if close:
        return ("Did you mean `%s`? Otherwise add the stream to the line of names."
                % close[0])
    return ("The streams are: %s. Correct the name, or add it to the line of "
            "names with its values." % ", ".join(given))


def integer_faults(text):
    names, lows, highs = sheet_lines(text)[:3]
    tokens = lows.tokens + highs.tokens + [
        token for line in constraint_lines(sheet_lines(text))
        for token in line.tokens]
    found = [at(token, "beyond ±%s" % numbered(limits.MAGNITUDE),
                "Use smaller units.") for token in tokens
             if has_integer_form(token.text)
             and abs(int(token.text)) > limits.MAGNITUDE]
    for name, low, high in zip(names.tokens, lows.tokens, highs.tokens):
        if int(low.text) > int(high.text):
            found.append(at(high, "the highest value of `%s` is below its "
                            "lowest, %s" % (name.text, low.text),
                            "Exchange the two."))
    return found


# ---- refusals 6 and 7: the tree of a sheet

def outside(ends):
    return ends[0] < -limits.MAGNITUDE or ends[1] > limits.MAGNITUDE


def ends_text(ends):
    return "%s to %s" % tuple(map(numbered, ends))


def interval_faults(sheet):
    """The innermost expressions that could leave the bound: a sum, difference
    or product of two that do not."""
    found, known = [], ranges(sheet)
    for expression in all_subexpressions(sheet.constraints):
        if type(expression) is not Binary or not outside(
                interval(expression, known)):
            continue
        parts = [interval(part, known)
                 for part in (expression.left, expression.right)]
        if any(map(outside, parts)):
            continue
        line, place = expression.place
        found.append(Fault(
            line + 1, place, "%s lies in %s, from %s and %s" % (
                expression_text(expression),
                ends_text(interval(expression, known)), *map(ends_text, parts)),
            "Use smaller ranges, factors or units; `%` by an integer makes "
            "an interval small again, `/` does not."))
    return sorted(found, key=lambda fault: fault[:2])


def rule_reach(constraint):
    """What the rule asks D for."""
    heads = [constraint.left, constraint.right] + [
        expression.operand for expression in firsts([constraint])]
    return max(map(reach, heads))


def rule_back(constraint):
    """What the rule asks B for."""
    return max(back(constraint.left), back(constraint.right))


def bound_faults(sheet):
    found = []
    if letter_count(sheet) > limits.LETTERS:
        found.append(Fault(None, None, "%s letters, and %s are allowed" % (
            numbered(letter_count(sheet)), numbered(limits.LETTERS)),
            "The letters are the product of the sizes of all ranges: narrow "
            "a range, use coarser units, or take a stream out that follows "
            "from others."))
    for what, places, most, mend in (
            ("`until` rules", [rule.place for rule in untils(sheet.constraints)],
             limits.UNTILS, "Join two goals that may come together: "
             "`1 until ( a and b )`; or split the sheet."),
            ("`first`", [word.place for word in firsts(sheet.constraints)],
             limits.FIRSTS, "Compute with one `first`: "
             "`first ( a + b )` for `( first a ) + ( first b )`.")):
        if len(places) > most:
            line, place = places[most]
            found.append(Fault(line + 1, place, "%d %s, and %d are allowed; "
                               "this is the first over" % (
                                   len(places), what, most), mend))
    return found + window_faults(sheet)


def window_faults(sheet):
    reaches = [rule_reach(rule) for rule in sheet.constraints]
    backs = [rule_back(rule) for rule in sheet.constraints]
    ahead, behind = max(reaches, default=0), max(backs, default=0)
    if ahead + behind <= limits.WINDOW:
        return []
    return [Fault(rule.place[0] + 1, None,
                  "the rules look D = %d times ahead and B = %d back, and "
                  "D+B may be %d; this rule looks %d ahead and %d back" % (
                      ahead, behind, limits.WINDOW, its_reach, its_back),
                  "Nest fewer `next` and `fby`; count with a stream of its "
                  "own instead (`docs/sheets.md`, Patterns).")
            for rule, its_reach, its_back
            in zip(sheet.constraints, reaches, backs)
            if its_reach and its_reach == ahead
            or its_back and its_back == behind]


# What finds the faults of a refusal, from the text or, for 6 and 7, the sheet.
TEXT_FAULTS = {1: byte_faults, 2: size_faults, 3: form_faults, 4: name_faults,
               5: integer_faults}
SHEET_FAULTS = {6: interval_faults, 7: bound_faults}


def token_column(line, place):
    """Where a token begins in its line, and how long it is."""
    tokens = list(re.finditer(r"[()]|[!-'*-~]+", line))
    return tokens[place].start(), len(tokens[place].group())
