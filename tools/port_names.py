#!/usr/bin/env python3
"""Spells this repository's own definitions and lemmas as today's Rattle does: words in snake case, types and modules in camel case.

usage: port_names.py [FOLDER]      FOLDER is the top of a checkout that port.py has turned; without it, the folder above tools/

  firstTokens          -> first_tokens           a definition, a field, a constructor, a variable
  addToLines-are       -> add_to_lines_are       a plain word is joined by an underscore
  addToLines-append    -> add_to_lines-append    a dash joins two names
  Prefix-at            -> Prefix-at              and a type to a name

A name that would meet another one in some file gets the ending that AGAIN gives it, or `_lem`. It is run once, after port.py. Names of Rust
(functions, fields, parameters) and names of Rattle's library stay. It prints what it leaves to look at, and how many names it turned;
with --list it prints each name and writes nothing.
"""

import os
import re
import sys

NAME = r"[^\s(){}.;,@\"«»\[\]\\:|`]+"
DECLARED = re.compile(r"^\s*((?:(?:pub|abbrev|unfoldable|private|record|data)\s+)*)([^\s(){};,@\"«»\[\]\\.]+)\s+(?:[({].*)?:(?:\s|$)")
CAMEL = re.compile(r"(?<![A-Za-z0-9])[a-z][a-z0-9]*[A-Z]\w*")
# Library words that a dash joins a name to.
LIBRARY = set(
    "length append map filter take drop set get_or sum replicate reverse zip cons snoc nil min max suc zero paste concat not".split()
)
# Names that would meet another: what they are called instead.
AGAIN = {
    "noPair": "no_pair_key",
    "residueValue": "value_of_residue",
    "noName": "empty_name",
    "noLow": "empty_low",
    "no-low": "no_low",
    "noStream": "absent_stream",
    "tokenStarts": "token_starts_of",
    "valueBefore": "part_value",
    "values-read": "values_read_lem",
    "noneLeft": "nothing_left",
    "passesNone": "passes_nothing",
    "tooLarge": "over_bounds",
}


def snake(part):
    part = part.replace("getD", "get_or")
    return re.sub(r"(?<=[a-z0-9])[A-Z]+", lambda m: "_" + m[0].lower(), part)


def cased(name):
    """Each lower camel case part in snake case; a part that begins with a capital stays."""
    return "-".join(snake(p) if CAMEL.match(p) else p for p in name.split("-"))


def files(top):
    for folder, dirs, names in os.walk(os.path.join(top, "crates")):
        dirs[:] = sorted(d for d in dirs if d not in ("out", ".git", "must-fail"))
        for n in sorted(names):
            if n.endswith((".antt", ".rt")):
                yield os.path.join(folder, n)


def in_function(path):
    """Whether the file is of one function's proof, where Rattle makes names too."""
    parts = path.split("/proofs/")
    return len(parts) == 2 and "/" in parts[1]


def is_operator(part):
    return not re.search(r"[A-Za-z]", part) or part in ("ℕ", "ℤ")


def main(top):
    texts = {}
    for p in files(top):
        with open(p, encoding="utf-8") as f:
            texts[p] = f.read()
    words, lemmas, fields, variants, tokens = set(), set(), set(), set(), {}
    for p, t in texts.items():
        bare = re.sub(r'--[^\n]*|//[^\n]*|"[^"\n]*"', "", t)
        tokens[p] = set(re.findall(rf"(?<![.\w'-]){NAME}", bare))
        if p.endswith(".rt"):
            # A clause sees the parameters, and no function by its name.
            seen = set(re.findall(r"\b(\w+)\s*:(?!:)", bare))
            tokens[p] = {it for it in tokens[p] if it in seen or not re.fullmatch(r"[a-z0-9_]+", it)}
        if not p.endswith(".antt"):
            continue
        inside, in_record = None, False
        for line in t.split("\n"):
            m = DECLARED.match(line)
            if not m or line.lstrip().startswith("--") or line.lstrip().startswith("use "):
                continue
            kind, name = m.group(1), m.group(2)
            if in_function(p) and re.search(r": (?:tie|goal)\.|: .*\bstatement\b|: .*-statement\b", line):
                continue
            if in_function(p) and "-" in name:
                continue
            if name in ("let", "where", "module", "open", "in", "◌") or "◌" in name:
                continue
            indent = len(line) - len(line.lstrip())
            if inside is not None and indent <= inside:
                inside = None
            is_word = "/specs/" in p or "abbrev" in kind or "record" in kind or "data" in kind or inside is not None
            if "record" in kind or "data" in kind:
                inside, in_record = indent, "record" in kind
            elif inside is not None and in_record:
                fields.add(name)
            elif inside is not None:
                variants.add(name)
            (words if is_word else lemmas).add(name)
    lemmas -= words
    fields -= variants
    plain = {cased(w).replace("-", "_") for w in words} | LIBRARY

    def joined(name):
        parts = cased(name).split("-")
        if name in words and not name[:1].isupper():
            return "_".join(parts) if all(not is_operator(p) for p in parts) else rejoin(parts)
        return rejoin(parts)

    def rejoin(parts):
        out, group = parts[0], parts[0]
        for i, p in enumerate(parts[1:], 1):
            rest = ["_".join(parts[i:j]) for j in range(len(parts), i, -1)]
            left = group in plain or group[:1].isupper() or is_operator(group)
            right = p[:1].isupper() or is_operator(p) or any(r in plain for r in rest)
            if not group or not p or (left and right) or group[:1].isupper() and not group[1:2].isupper() and left:
                out, group = out + "-" + p, p
            else:
                out, group = out + "_" + p, group + "_" + p
        return out

    new = {}
    for n in sorted(words | lemmas):
        to = joined(n)
        if to != n:
            new[n] = to
    # Local variables and what is declared in other ways.
    for p, found in tokens.items():
        if p.endswith(".antt"):
            for n in found:
                if n not in new and n not in words and n not in lemmas and any(CAMEL.match(q) for q in n.split("-")):
                    new[n] = cased(n)
    # Names that would meet another in some file.
    by_new = {}
    for n, to in new.items():
        by_new.setdefault(to, set()).add(n)
    meets = {}
    for p, found in tokens.items():
        for n in found & new.keys():
            to = new[n]
            if n in fields:
                continue  # it is reached by its record
            if to in found or (by_new[to] & found) - {n}:
                meets.setdefault(n, []).append(p)
    for n, where in sorted(meets.items()):
        to = AGAIN.get(n)
        if to is None and n in lemmas and "-" in n:
            to = new[n] + "_lem"
        if to is None:
            print(f"meets: {n} -> {new[n]} in {', '.join(os.path.relpath(w, top) for w in where[:3])} ({len(where)})")
            continue
        new[n] = to
    ordered = sorted(new, key=len, reverse=True)
    print(f"{len(ordered)} names")
    if "--list" in sys.argv:
        for n in sorted(new):
            print(n, new[n])
        return
    whole = re.compile(rf"(?<![\w'₀-₉-])({NAME})")

    def turn(text):
        def one(m):
            return new.get(m[1], m[1])

        return whole.sub(one, text)

    changed = 0
    for p, t in texts.items():
        if p.endswith(".rt"):
            out = "".join(turn(part) if not part.startswith('"') else part for part in re.split(r'(b?"(?:[^"\\\n]|\\.)*")', t))
        else:
            out = turn(t)
        if out != t:
            changed += 1
            with open(p, "w", encoding="utf-8") as f:
                f.write(out)
    pages = [os.path.join(top, "README.md")] + sorted(os.path.join(top, "docs", n) for n in os.listdir(os.path.join(top, "docs")) if n.endswith(".md") and n != "CHANGES.md")
    for p in pages:
        with open(p, encoding="utf-8") as f:
            t = f.read()
        out = re.sub(r"`[^`\n]*`", lambda m: turn(m[0]), t)
        if out != t:
            changed += 1
            with open(p, "w", encoding="utf-8") as f:
                f.write(out)
    print(f"{changed} files")


if __name__ == "__main__":
    given = [a for a in sys.argv[1:] if not a.startswith("--")]
    main(given[0] if given else os.path.dirname(os.path.dirname(os.path.realpath(__file__))))
