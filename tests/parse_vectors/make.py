#!/usr/bin/env python3
"""Writes the files `stdin` and `stdout` of the crate `parse_vectors` below the folder of crates that it is given.

    python3 tests/parse_vectors/make.py SHEETS CRATES

The lines are constraint lines of the enumerator's stored sheets, as they stand in the sheet and
fully bracketed, with lines of random tokens and the lines below. What they must be read as comes
from the enumerator's grammar, stored by `store`, a plain reading of `postfix` (crates/nodes/specs).
"""
import json
import os
import pathlib
import random
import sys

sys.path.insert(0, str(pathlib.Path(__file__).resolve().parents[2] / "enumerator"))
import grammar  # noqa: E402
from commands import folders  # noqa: E402

BOUND = 1000000000
ROOM = 65536 - 1
KINDS = {"first": 2, "next": 3, "not": 4, "fby": 6}
OPERATORS = ("+", "-", "*", "/", "%", "lt", "le", "eq", "ge", "gt", "ne", "and", "or")
KINDS.update({word: 7 + number for number, word in enumerate(OPERATORS)})
EXTRA = [
    ("x", "1000000000 < -1000000000"), ("x", "1000000001 < x"), ("x", "x < -1000000001"), ("x", "9" * 40 + " < 1"),
    ("x", "-0 < 1"), ("x", "00 < 1"), ("x", "01 < 1"), ("x", "- < 1"), ("x", "--1 < 1"), ("x", "0 < 0"), ("x", "12a < 1"),
    ("x", ""), ("x", " "), ("x", "< x"), ("x", "x <"), ("x", "x < x x"), ("x", "( x < x"), ("x", "( x ) ) < x"), ("x", "( ) < x"),
    ("x", "(((x)))<((x))"), ("x", "(x)<(x)"), ("x", "x<x"), ("abcdefgh", "abcdefgh < abcdefghi"), ("a b c", "c < d"),
    ("x", "until until until"), ("x", "not not first x until first next x"), ("x", "x + x + x < 1"), ("x", "( x + x ) + x < 1"),
    ("x", "if x then x else x < if x then x else x"), ("x", "if x then x < 1"), ("x", "if x else x then x < 1"),
    ("x", "( if x then x else x ) + 1 < 1"), ("x", "if x then x else x + 1 < 1"), ("x", "first ( first x fby first x ) == 1"),
    ("x", "( x + ) < x"), ("x", "( x x ) < x"), ("x", "x >= x"), ("x", "( x ge x ) > x"), ("x", "first < x"), ("x", ")x( < x"),
    ("x", "( " * 40 + "x" + " )" * 40 + " < 1"), ("x", "not " * 1021 + "x < 1"), ("x", "not " * 1022 + "x < 1"), ("x", "x\x7fy < 1"),
]
WORDS = ["x", "y", "zz", "1", "-2", "0", "1000000001", "(", "(", ")", ")", "if", "then", "else", "first", "next", "not", "fby", "+", "-",
         "lt", "ge", "and", "<", ">=", "until", "->", "=="]


def store(names, expression, nodes, firsts):
    """Appends the expression's nodes; gives the number of `first`s after it."""
    start = len(nodes)
    kind = type(expression)
    number = firsts
    if kind is grammar.Unary and expression.word == "first":
        firsts += 1
    for operand in grammar.operands(expression):
        firsts = store(names, operand, nodes, firsts)
    if kind is grammar.Integer:
        nodes.append((0, expression.value if abs(expression.value) <= BOUND else 0, start))
    elif kind is grammar.Name:
        place = names.index(expression.text) if expression.text in names else len(names)
        nodes.append((1, place, start))
    elif kind is grammar.Conditional:
        nodes.append((5, 0, start))
    else:
        nodes.append((KINDS[expression.word], number if expression.word == "first" else 0, start))
    return firsts


def answer(names, line):
    tokens = grammar.split_tokens(line.encode("latin-1"), 0)
    if len(tokens) > 1024:
        return [0] * 8
    readings = grammar.constraint_readings(tokens)
    if not readings:
        return [1] + [0] * 7
    constraint = readings[0]
    nodes = []
    firsts = store(names, constraint.left, nodes, 0)
    left = len(nodes) - 1
    firsts = store(names, constraint.right, nodes, firsts)
    beyond = any(type(part) is grammar.Integer and abs(part.value) > BOUND
                 for part in grammar.all_subexpressions([constraint]))
    numbers = [1, 1, grammar.SIGNS.index(constraint.sign), left, len(nodes) - 1, len(nodes), firsts, int(beyond)]
    return numbers + [number for node in nodes for number in node]


def stored_lines(path):
    for text in open(path):
        vector = json.loads(text)
        if "constraints" not in vector or "names" not in vector:
            continue
        names = " ".join(vector["names"])
        for line in vector["constraints"]:
            yield names, line
        for line in vector.get("sheet", "").split("\n")[3:]:
            yield names, line


def random_lines(count):
    chance = random.Random(5)
    for _ in range(count):
        yield "x y", " ".join(chance.choice(WORDS) for _ in range(chance.randint(1, 9)))


def grown_lines(count):
    """Lines that are constraints more often than not."""
    chance = random.Random(7)

    def part(depth):
        pick = chance.randint(0, 9 if depth else 4)
        if pick < 3:
            return chance.choice(["x", "y", "zz"])
        if pick < 5:
            return str(chance.choice([0, 7, -3, 1000000000, -1000000001]))
        if pick < 8:
            return chance.choice(["first", "next", "not"]) + " " + part(depth - 1)
        return "(" + expression(depth - 1) + ")"

    def expression(depth):
        pick = chance.randint(0, 3)
        if pick == 0:
            return part(depth)
        if pick == 1:
            return "if %s then %s else %s" % (part(depth), part(depth), part(depth))
        return "%s %s %s" % (part(depth), chance.choice(list(OPERATORS) + ["fby"]), part(depth))

    for _ in range(count):
        yield "x y", "%s %s %s" % (expression(4), chance.choice(grammar.SIGNS), expression(4))


def main(sheets, crates):
    lines = EXTRA + list(random_lines(300)) + list(grown_lines(150)) + list(stored_lines(sheets))
    size = 0
    folder = os.path.join(crates, "parse_vectors")
    os.makedirs(folder, exist_ok=True)
    with open(folder + "/stdin", "w", encoding="latin-1") as given, open(folder + "/stdout", "w") as wanted:
        for names, line in lines:
            size += len(names) + len(line) + 2
            if size > ROOM:
                break
            given.write(names + "\n" + line + "\n")
            wanted.write("".join("%d " % number for number in answer(names.split(), line)) + "\n")


if __name__ == "__main__":
    main(*folders(__doc__, "sheets", "crates"))
