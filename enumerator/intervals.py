"""Intervals, reach and back: numbers that document 01 reads off a tree."""

from grammar import (COMPARISON_WORDS, ROUNDED_DOWN, Conditional, Integer,
                     Name, all_subexpressions, is_word, operands, sides)

TRUTH_WORDS = COMPARISON_WORDS + ("and", "or", "not")


def hull(intervals):
    """The least interval that holds all the given ones."""
    return (min(low for low, high in intervals),
            max(high for low, high in intervals))


def ends_interval(word, left, right):
    """"for `+ - *` the least and greatest over the ends" """
    apply = {"+": lambda a, b: a + b, "-": lambda a, b: a - b,
             "*": lambda a, b: a * b}[word]
    results = [apply(a, b) for a in left for b in right]
    return min(results), max(results)


def remainder_interval(dividend, divisor):
    """"a remainder lies within ±k, k the smaller of the dividend's M and the
    divisor's M less 1 (not below 0).  Its low end is 0 if the dividend's is at
    least 0; its high end is 0 if the dividend's is at most 0." (document 02,
    S-2)"""
    bound = min(largest_magnitude(dividend),
                max(largest_magnitude(divisor) - 1, 0))
    low, high = dividend
    return (0 if low >= 0 else -bound), (0 if high <= 0 else bound)


def remainder_down_interval(divisor):
    """"a remainder's is ±k with k the divisor's M less 1, not below 0"
    (document 02, S-11)"""
    bound = max(largest_magnitude(divisor) - 1, 0)
    return -bound, bound


def largest_magnitude(ends):
    """"M the larger magnitude of the [..] ends" """
    return max(abs(end) for end in ends)


def interval(expression, ranges):
    """"Each expression has an interval"; ranges maps a name to its range."""
    kind = type(expression)
    if kind is Integer:
        return expression.value, expression.value
    if kind is Name:
        return ranges[expression.text]
    if kind is Conditional:
        return hull([interval(expression.when_true, ranges),
                     interval(expression.when_false, ranges)])
    word = expression.word
    if word in TRUTH_WORDS:
        return 0, 1
    inner = [interval(operand, ranges) for operand in operands(expression)]
    # In release 2 "A quotient's interval is as before".
    if word in ("/", ROUNDED_DOWN["/"]):
        magnitude = largest_magnitude(inner[0])
        return -magnitude, magnitude
    if word == "%":
        return remainder_interval(*inner)
    if word == ROUNDED_DOWN["%"]:
        return remainder_down_interval(inner[1])
    if word in ("+", "-", "*"):
        return ends_interval(word, *inner)
    # What is left is `first`, `next` and `fby`.
    return hull(inner)


def reach(expression):
    """"Reach: 0 for a name or integer; `next` adds 1; `fby` is the larger of
    the left's reach and the right's less 1; otherwise the largest of the
    parts." """
    if type(expression) in (Name, Integer):
        return 0
    inner = [reach(operand) for operand in operands(expression)]
    if is_word(expression, "next"):
        return inner[0] + 1
    if is_word(expression, "fby"):
        return max(inner[0], inner[1] - 1)
    return max(inner)


def back(expression):
    """"Back: 0 for a name, an integer and `first`; `next` takes 1 off, not
    below 0; `fby` is the right's plus 1; otherwise the largest." """
    if type(expression) in (Name, Integer) or is_word(expression, "first"):
        return 0
    inner = [back(operand) for operand in operands(expression)]
    if is_word(expression, "next"):
        return max(inner[0] - 1, 0)
    if is_word(expression, "fby"):
        return inner[1] + 1
    return max(inner)


def firsts(constraints):
    """Every `first` of the sheet, in text order."""
    found = [expression for expression in all_subexpressions(constraints)
             if is_word(expression, "first")]
    return sorted(found, key=lambda expression: expression.place)


def untils(constraints):
    return [constraint for constraint in constraints
            if constraint.sign == "until"]


def deepest_reach(constraints):
    """"D is the largest reach of such a side or of what any `first` stands
    before. Without constraints both are 0." """
    reaches = [reach(side) for side in sides(constraints)]
    reaches += [reach(expression.operand) for expression in firsts(constraints)]
    return max(reaches, default=0)


def deepest_back(constraints):
    """"B is the largest back of a whole side of a constraint." """
    return max((back(side) for side in sides(constraints)), default=0)
