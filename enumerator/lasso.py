"""Ultimately periodic words and what the meaning says of them directly.

Nothing here uses situations, tables or `meaning.py`.  An expression has a
course, its values at all times, and each operator makes a course of the
courses of its parts.  A value is a tuple of one number, or of none where
there is none (document 02, S-5).
"""

from collections import namedtuple
from math import lcm

from grammar import ROUNDED_DOWN, Binary, Conditional, Integer, Name

# A word of letter numbers, or a course of values: the prefix, then the loop
# again and again.
Lasso = namedtuple("Lasso", "prefix loop")

HOLDS = {
    "<": lambda a, b: a < b, "<=": lambda a, b: a <= b,
    "==": lambda a, b: a == b, ">=": lambda a, b: a >= b,
    ">": lambda a, b: a > b, "!=": lambda a, b: a != b,
    "->": lambda a, b: a == 0 or b != 0,
}
WORD_SIGNS = {"lt": "<", "le": "<=", "eq": "==", "ge": ">=", "gt": ">",
              "ne": "!="}


def cut_quotient(a, b):
    """The quotient rounded down, or up where the signs differ: cut toward
    zero."""
    return -(-a // b) if (a < 0) != (b < 0) else a // b


def operated(word, a, b):
    """What an operator makes of two numbers."""
    if word in ("/", "%", *ROUNDED_DOWN.values()) and b == 0:
        return ()
    if word in WORD_SIGNS:
        return (int(HOLDS[WORD_SIGNS[word]](a, b)),)
    return {"+": lambda: (a + b,), "-": lambda: (a - b,),
            "*": lambda: (a * b,), "/": lambda: (cut_quotient(a, b),),
            "%": lambda: (a - b * cut_quotient(a, b),),
            ROUNDED_DOWN["/"]: lambda: (a // b,),
            ROUNDED_DOWN["%"]: lambda: (a % b,),
            "and": lambda: (int(0 not in (a, b)),),
            "or": lambda: (int((a, b) != (0, 0)),)}[word]()


def at(lasso, time):
    if time < len(lasso.prefix):
        return lasso.prefix[time]
    return lasso.loop[(time - len(lasso.prefix)) % len(lasso.loop)]


def from_times(values, prefix, loop):
    """The course with these values at each time below prefix + loop."""
    found = [values(time) for time in range(prefix + loop)]
    return Lasso(found[:prefix], found[prefix:])


def together(*courses):
    """The tuples of values that courses have at each time."""
    return from_times(lambda time: tuple(at(course, time) for course in courses),
                      max(len(course.prefix) for course in courses),
                      lcm(*(len(course.loop) for course in courses)))


def mapped(function, *courses):
    joined = together(*courses)
    return Lasso(*([function(*values) for values in part] for part in joined))


def constant(value):
    return Lasso([], [value])


def streams_of(names, letters, lasso):
    """The courses of the sheet's streams along a word."""
    return {name: mapped(lambda letter: (letters[letter][column],), lasso)
            for column, name in enumerate(names)}


def course(expression, streams):
    """The course of an expression, from those of the streams by their names."""
    kind = type(expression)
    if kind is Integer:
        return constant((expression.value,))
    if kind is Name:
        return streams[expression.text]
    if kind is Conditional:
        return mapped(lambda condition, when_true, when_false: tuple(
            number for test in condition
            for number in (when_true if test else when_false)),
            *(course(part, streams) for part in expression))
    if kind is Binary:
        return binary_course(expression.word, course(expression.left, streams),
                             course(expression.right, streams))
    part = course(expression.operand, streams)
    if expression.word == "first":
        return constant(at(part, 0))
    if expression.word == "next":
        return from_times(lambda time: at(part, time + 1), len(part.prefix),
                          len(part.loop))
    return mapped(lambda value: tuple(int(number == 0) for number in value),
                  part)


def binary_course(word, left, right):
    if word == "fby":
        return Lasso([at(left, 0)] + right.prefix, right.loop)
    return mapped(lambda one, other: tuple(
        number for a in one for b in other for number in operated(word, a, b)),
        left, right)


def sides_of(constraint, streams):
    """The values of both sides at all times that differ."""
    both = together(course(constraint.left, streams),
                    course(constraint.right, streams))
    return both.prefix + both.loop


def is_met(constraint, streams):
    """Whether a constraint of a sheet is met.  "`a until b`: at some i, b is
    not 0, and a is not 0 at every earlier time" """
    times = sides_of(constraint, streams)
    if constraint.sign != "until":
        return all(any(HOLDS[constraint.sign](a, b)
                       for a in left for b in right) for left, right in times)
    done = [any(right) for _, right in times]
    return any(done) and all(any(left) for left, _ in times[:done.index(True)])


def is_same(constraint, streams):
    """Whether an added entry of a normal form is met: "none equals none and
    no number"."""
    return all(left == right for left, right in sides_of(constraint, streams))


def is_solution(sheet, streams):
    """"A solution gives each stream an endless course in its range that
    meets every constraint." """
    return all(is_met(constraint, streams) for constraint in sheet.constraints)


def solves_normal_form(normal, streams):
    """The rewritten constraints are met as a sheet's are, the added entries by
    their own rule."""
    return (all(is_met(entry, streams) for entry in normal.rewritten)
            and all(is_same(entry, streams) for entry in normal.added_entries))
