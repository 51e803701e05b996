#!/usr/bin/env python3
"""Turns proofs/F/Proof.antt of the older form (invariants, answers, tie.close) into Invariants.antt and Answers.antt of today's.

usage: port_proofs.py NAMES CRATE [--none | --only GOAL,..] [FUNCTION..]

NAMES is the names.json that `rt check --generated DIR --old-names` (or `rt names`) wrote for the crate, CRATE its folder. Each function whose
Proof.antt gives its answers to `tie.spec` is turned: the i-th answer is that of the i-th goal, a path through the steps before a goal loses its
`.before`, and a step gets its new name. An answer `search rules` is left out, since the check finds it. With --none no answer is kept.
The old file is kept as /tmp/port-old/CRATE/F.antt, from which a second run begins.
"""

import json
import os
import re
import sys

NAME = r"[^\s(){}.;,@\"«»\[\]\\:|`]+"
OLD = "/tmp/port-old"


def alike(it):
    return re.sub("[-_]", "", it).lower()


def items(text):
    """The top items of a file: (comment and blank lines before, the lines of the item)."""
    out, before, item = [], [], []
    for line in text.split("\n"):
        if line and not line[0].isspace() and not (item and (line[0] in ")}]" or line.startswith("unfolding "))):
            if item and not line.startswith("--"):
                # a second clause or an equation of the same item begins with its name; each is an item, joined later
                out.append((before, item))
                before, item = [], []
            elif item:
                out.append((before, item))
                before, item = [], []
            if line.startswith("--"):
                before.append(line)
            else:
                item.append(line)
        elif not line.strip():
            if item:
                item.append(line)
            else:
                before.append(line)
        else:
            item.append(line)
    if item or before:
        out.append((before, item))
    return out


def head(item):
    m = re.match(rf"(?:(?:pub|abbrev|unfoldable|private)\s+)*({NAME})", item[0])
    return m[1] if m else None


def sub_tokens(text, table):
    """Replaces whole tokens that stand behind no dot."""
    return re.sub(rf"(?<![^\s(){{}};,@«»\[\]\\])({NAME})", lambda m: table.get(m[1], m[1]), text)


def sub_tokens_whole(text, table):
    """Replaces a token and keeps its projections."""
    return re.sub(rf"(?<![^\s(){{}};,@«»\[\]\\])({NAME})", lambda m: (table[m[1]] if " " not in table[m[1]] else "(" + table[m[1]] + ")") if m[1] in table else m[1], text)


def args_of(text):
    """The arguments of an application, split at the top level."""
    out, depth, cur = [], 0, ""
    for ch in text:
        if ch in "({[":
            depth += 1
        if ch in ")}]":
            depth -= 1
        if ch.isspace() and depth == 0:
            if cur:
                out.append(cur)
            cur = ""
        else:
            cur += ch
    if cur:
        out.append(cur)
    return out


WORDS = {}
CLAUSES = {}


def clauses_of(crate):
    """The names of the clauses of each function of the repository, by crate::function."""
    top = os.path.dirname(crate)
    if top not in CLAUSES:
        found = {}
        for folder, dirs, fs in os.walk(top):
            dirs[:] = [d for d in dirs if d not in ("out", "proofs", "specs")]
            for f in fs:
                if f.endswith(".rt"):
                    c = os.path.relpath(folder, top).split(os.sep)[0]
                    text = open(os.path.join(folder, f)).read()
                    for m in re.finditer(r"\bfn (\w+)[^{]*?\)[^{]*?((?:\n\s*(?:requires|ensures)\*? [^\n]*)+)", text):
                        req = re.findall(r"\brequires\*? (\w+) \{", m[2])
                        ens = re.findall(r"\bensures\*? (\w+) \{", m[2])
                        found.setdefault(f"{c}::{m[1]}", (req, ens))
        CLAUSES[top] = found
    return CLAUSES[top]


def named(path, names):
    """A path of .0 and .1 into a product of clauses, by their names."""
    steps = re.findall(r"\.\d+(?![\w])", path)
    if len(names) < 2 or not steps:
        return path
    j, i = 0, 0
    while j < len(names) - 1 and i < len(steps) and steps[i] == ".1":
        j, i = j + 1, i + 1
    if j < len(names) - 1:
        if i >= len(steps):
            return path
        i += 1
    return "." + names[j] + "".join(steps[i:])



def words_of(crate):
    """The names of the sources of this repository that have an underscore."""
    top = os.path.dirname(crate)
    if top not in WORDS:
        found = set()
        for folder, dirs, fs in os.walk(top):
            dirs[:] = [d for d in dirs if d not in ("out", "proofs", "specs")]
            for f in fs:
                if f.endswith(".rt"):
                    found |= set(re.findall(r"\b[a-z][a-z0-9]*(?:_[a-z0-9]+)+\b", open(os.path.join(folder, f)).read()))
        WORDS[top] = found
    return WORDS[top]


def convert(names, crate, f, keep, told):
    name = os.path.basename(crate)
    lts = names.get(f"Rattle-{name}-proofs.{f}.Lts")
    if lts is None:
        lts = next((v for k, v in names.items() if k.startswith("Rattle-") and f".{f}.Lts" in k), None)
    if lts is None:
        return told(f, "no names")
    folder = os.path.join(crate, "proofs", f)
    old = os.path.join(OLD, name, f + ".antt")
    if not os.path.exists(old):
        src = os.path.join(folder, "Proof.antt")
        if not os.path.exists(src):
            return told(f, "no Proof.antt")
        text = open(src, encoding="utf-8").read()
        if "tie.close" not in text:
            return told(f, "no tie.close")
        os.makedirs(os.path.dirname(old), exist_ok=True)
        open(old, "w", encoding="utf-8").write(text)
    text = open(old, encoding="utf-8").read()
    comment, uses, rest = [], [], []
    for before, item in items(text):
        if not item:
            continue
        if item[0].startswith("use ") or item[0].startswith("open "):
            comment += [c for c in before if c.startswith("--")] if not uses else []
            uses.append((before, "\n".join(item).strip()))
        else:
            rest.append((before, item))
    # join the lines of one item
    groups, by_name = [], {}
    for before, item in rest:
        h = head(item)
        if h in by_name and not item[0].startswith(("module", "pub module")):
            by_name[h][1].extend(["\n".join([*before, *item])] if before else item)
        else:
            g = [h, list(item), before]
            groups.append(g)
            by_name[h] = g
    spec = None
    for g in groups:
        body = "\n".join(g[1])
        if "tie.close" in body:
            spec = g
    m = re.search(r"tie\.spec\b(.*)\)\s*$", "\n".join(spec[1]).strip(), re.S)
    if m is None:
        m = re.search(r"tie\.spec\b(.*)$", "\n".join(spec[1]).strip(), re.S)
    given = args_of(m[1].strip()) if m else []
    given = [a.rstrip(")") if a.count(")") > a.count("(") else a for a in given]
    loops, needs = lts["loops"], lts["needs"]
    groups.remove(spec)
    want = 2 * len(loops) + len(needs)
    if len(given) != want:
        # a loop without a measure has one argument
        pass
    n_goals = len(needs)
    if len(given) != want:
        # by name: the goals that are gone are left out
        def plain(it):
            it = re.sub(r"^(overflow|nonzero)-", "", it)
            return alike(it.replace("holds", "init").replace("less", "smaller").replace("again", "preserved"))

        by_goal = {}
        for g in groups:
            m = re.search(rf":\s*tie\.Need-({NAME})", "\n".join(g[1]))
            if m:
                by_goal[plain(m[1])] = g[0]
        lost = [o for o, n in needs if plain(o) not in by_goal]
        if lost:
            told(f, f"no answer by name for {lost[:6]}")
        heads_n = len(given) - len(by_goal)
        pairs = [(by_goal[plain(o)], (o, n)) for o, n in needs if plain(o) in by_goal]
    else:
        pairs = list(zip(given[len(given) - n_goals:], needs))
    heads = [g for g in given if g in by_name and re.search(r'tie\.(invariant|decreases)-', '\n'.join(by_name[g][1]))]
    inv_names = [h for h in heads]
    source = words_of(crate)
    # steps: old label to new
    step, typed = {}, {}
    for p in lts["places"]:
        o, n = p[2]
        if o:
            step.setdefault(alike(o), n)
    made_steps = set(step.values())
    known = {}
    for row in lts["typed"]:
        for var, o in row:
            known.setdefault(alike(o), var)

    callee, parent, renamed, at = {}, {}, {}, {}
    for p, n in zip(lts["places"], lts["places_by_name"]):
        if p[3]:
            callee.setdefault(alike(p[2][0]), lts["params"].get(p[3]))
        parent[p[0]] = p[1]
        renamed.setdefault(alike(p[0]), n)
        at.setdefault(alike(p[0]), p[0])

    def up(place, count):
        for _ in range(count):
            place = parent.get(place) if place else None
        return place

    def paths(t, goal=None, place=None):
        # the types of places
        t = re.sub(rf"tie\.((?!Need-|invariant-|decreases-|close|spec)[A-Z]{NAME})((?:\s+(?:invariant|decreases)-{NAME})*)", lambda m: "goal." + renamed[alike(m[1])] if alike(m[1]) in renamed else m[0], t)
        t = re.sub(r"(?m)^(\S+ c) κs(?=\s)", r"\1", t)

        # what a call left, by position
        def left(m):
            ps = callee.get(alike(m[1]))
            k = m[2].count(".1")
            return f".{m[1]}.new.{ps[k]}" if ps and k < len(ps) else m[0]

        t = re.sub(rf"\.({NAME})\.new((?:\.1)*\.[01])(?![\w])", lambda m: left(m), t)

        t = re.sub(r"(\.before)+(?![\w-])", "", t)

        # clauses by their names
        mine = clauses_of(crate).get(f"{name}::{f.lstrip('+')}", ([], []))
        t = re.sub(r"\.requires((?:\.\d+(?![\w]))+)", lambda m: ".requires" + named(m[1], mine[0]), t)

        def told_by(label, path):
            for p in lts["places"]:
                if p[3] and alike(p[2][0]) == alike(label):
                    return named(path, clauses_of(crate).get(p[3], ([], []))[1])
            return path

        t = re.sub(rf"\.({NAME})\.ensures((?:\.\d+(?![\w]))+)", lambda m: f".{m[1]}.ensures" + told_by(m[1], m[2]), t)
        for v, label in re.findall(rf"let (\S+) = c(?:\.before)*\.({NAME}) in", t):
            t = re.sub(rf"(?<![\w.'-]){re.escape(v)}\.ensures((?:\.\d+(?![\w]))+)", lambda m: f"{v}.ensures" + told_by(label, m[1]), t)

        # a projection of a step: c.STEP or x.STEP
        def one(m):
            seg = m[1]
            a = alike(seg)
            if a in known and re.match(r"\.given", t[m.end():]):
                return "." + "type_inv." + known[a] + "\0"
            if a in step:
                if re.search(r"-\d+$", step[a]) and t[: m.start()][-2:].strip("( ,[") != "c":
                    return m[0]
                return "." + step[a]
            if "-" in seg and seg.replace("-", "_") in source and seg not in made_steps:
                return "." + seg.replace("-", "_")
            return m[0]

        t = re.sub(rf"(?<=[\w)])\.({NAME})", one, t)
        t = re.sub(r"\0\.given", "", t).replace("\0", "").replace(".type-inv", ".type_inv")
        # a test of !x says what x is
        nots = [v for v, label in re.findall(rf"let (\S+) = c\.({NAME}) in", t) if label.startswith("if-not-")]
        path = r"(?:c\.if-not-[^\s(){}.;,]+" + "".join("|" + re.escape(v) for v in nots) + r")\.(?:true|false)"
        # (where x is a field, it still says what !x is)
        t = re.sub(rf"\(not-(?:false|true) (?!\S+\.result\.)\S+ ({path})\)", r"\1", t)
        t = re.sub(rf"(?<![\w-])not-(?:false|true) (?!\S+\.result\.)\S+ ({path})", r"\1", t)
        return t.replace(".came", ".branch").replace(".taken", ".true")

    inv_out, used_in_inv, equations = [], set(), {}
    k = 0
    loop_of = {}
    for (lo, ln), vs in [((l[0][0], l[0][1]), l[1]) for l in loops]:
        loop_of[alike(lo)] = (ln, vs)
    changed = {alike(l[0][0]): c for l, c in zip(loops, lts["changed"])}
    for g in list(groups):
        h = g[0]
        t = "\n".join(g[1])
        m = re.search(rf"tie\.(invariant|decreases)-({NAME})", t)
        if not (m and h in inv_names):
            continue
        groups.remove(g)
        kind, lo = m[1], m[2]
        if alike(lo) not in loop_of:
            told(f, f"no loop {lo}")
            continue
        ln, vs = loop_of[alike(lo)]
        ch = changed[alike(lo)]
        # the equation
        eq = re.search(rf"(?m)^{re.escape(h)}((?:\s+[^\s=]+)*)\s+=\s*(.*)\Z", t, re.S)
        if not eq:
            told(f, f"{h} has no one equation")
            inv_out.append(("-- ? " + t, kind, ln))
            continue
        params, body = eq[1].split(), eq[2].rstrip()
        equations[h] = (params, body)
        ini, cur = params[: len(vs)], params[len(vs):]
        table = {}
        for v, p, c in zip(vs, ini, ch):
            table[p] = f"l.initial.{v}" if c else f"l.{v}"
        for v, p in zip([v for v, c in zip(vs, ch) if c], cur):
            table[p] = f"l.{v}"
        if len(params) != len(vs) + sum(ch):
            told(f, f"{h}: {len(params)} parameters, {len(vs)} and {sum(ch)} variables")
        table.pop("_", None)
        body = re.sub(rf"(?<![^\s(){{}};,@«»\[\]\\])({NAME})(?!\s*=\s)((?:\.[A-Za-z0-9_'-]+)*)", lambda m: (table[m[1]] if m[1] in table else m[1]) + m[2], body)
        inv_out.append((f"abbrev pub {kind}-{ln} : goal.{kind}-{ln}\n{kind}-{ln} l = {body}", kind, ln))
    # answers
    ans_out, dropped = [], 0
    answered = {}
    for a, (o, n) in pairs:
        answered.setdefault(a, []).append(n)
    consumed = set()
    for a, goals in answered.items():
        g = by_name.get(a)
        if g is None or g not in groups:
            if not re.match(r"^\(", a):
                told(f, f"answer {a} not found")
            continue
        t = "\n".join(g[1]).rstrip()
        m = re.search(r":\s*tie\.Need-[^\n]*\n", t + "\n")
        body = t[m.end():] if m else None
        groups.remove(g)
        if body is None:
            told(f, f"answer {a} has no goal line")
            continue
        if re.fullmatch(rf"{re.escape(a)}(\s+\S+)*\s+=\s*search (rules|needs)\s*", body.strip()):
            dropped += 1
            continue
        for n in goals:
            if n.startswith("shape_of-"):
                continue
            if keep is not None and n not in keep and "*" not in keep:
                continue
            b = re.sub(rf"(?m)^{re.escape(a)}(?![\w'-])", lambda _: n, body)
            b = re.sub(r"(?m)^(\S+ c) κs(?=\s)", r"\1", b)
            com = "\n".join(c for c in g[2] if c.strip())
            ans_out.append((com + "\n" if com else "") + f"pub {n} : goal.{n}\n\0M{n}\0" + b)
    # lemmas over places become parts of the answers that use them
    macros = {}
    for g in list(groups):
        t = "\n".join(g[1]).rstrip()
        m = re.match(rf"(?:abbrev |pub |private )*({NAME}) : (?:\(c : (tie\.[A-Z]{NAME}(?: (?:invariant|decreases)-{NAME})*)\)|(tie\.[A-Z]{NAME}(?: (?:invariant|decreases)-{NAME})*))(?: →)? ?((?:.|\n)*?)\n((?:unfolding[^\n]*\n)?)({NAME}) c((?: [^\s=]+)*) =((?:.|\n)*)$", t)
        if not m or m[1] != m[6] or m[5] or len(re.findall(rf"(?m)^{re.escape(m[1])} ", t)) != 1 + bool(re.match(rf"{re.escape(m[1])} ", t)) or "\n  where" in t or "\n    where" in t:
            if re.search(r"tie\.[A-Z](?!eed-)", t):
                told(f, f"lemma over a place, by hand: {g[0]}")
            continue
        groups.remove(g)
        macros[m[1]] = (m[4].strip().lstrip('→').strip(), m[7].split(), m[8].strip("\n"), [c for c in g[2] if c.strip()])

    def with_macros(text, n):
        """The answer with the lemmas that it uses written before it."""
        if not macros:
            return text
        used, queue = [], [text]
        aliases = [k for k, v in macros.items() if re.match(r"tie\.[A-Z]", v[0])]

        def apply(t):
            vs = re.findall(r"let (\w+)(?: : [^=]*)? = c(?:\.before)* in", t) + re.findall(r"let (\w+) = c(?:\.before)* in", t)
            arg = r"(?:c(?:\.before)*(?![\w.'-])|\(c(?:\.before)*\)" + "".join(rf"|{v}(?![\w.'-])" for v in dict.fromkeys(vs)) + ")"
            for a in aliases:
                t = re.sub(rf"\({re.escape(a)} {arg}\)", "c", t)
                t = re.sub(rf"(?<![\w'-]){re.escape(a)} {arg}", "c", t)
            for k in macros:
                if k not in aliases:
                    t = re.sub(rf"(?<![\w'.-]){re.escape(k)} {arg}", k, t)
            return t

        def visit(k):
            if k in used or k in aliases:
                return
            for j in macros:
                if j != k and re.search(rf"(?<![\w'.-]){re.escape(j)}(?![\w'-])", macros[k][0] + " " + macros[k][2]):
                    visit(j)
            used.append(k)

        for k in macros:
            if re.search(rf"(?<![\w'.-]){re.escape(k)}(?![\w'-])", text):
                visit(k)
        text = apply(text)
        lets = ""
        for k in used:
            ty, ps, body, com = macros[k]
            m = re.match(r"(invariant-\S+) (.*)$", ty, re.S)
            if m and m[1] in equations:
                names_, eq = equations[m[1]]
                given_ = args_of(m[2])
                if len(given_) == len(names_):
                    ty = sub_tokens_whole(eq, dict(zip(names_, given_)))
            body = apply(body)
            ty = apply(ty)
            if "\n" in body.strip():
                body = "(" + body.strip() + ")"
            lam = f"λ {' '.join(ps)}. " if ps else ""
            lets += f"    let {k} : {ty} = {lam}{body.strip()} in\n"
        if not lets:
            return text
        m = re.match(rf"({re.escape(n)} c =)", text) or re.search(rf"(?m)^({re.escape(n)} c =)", text)
        if not m:
            told(f, f"{n}: lemmas {used} are to be written in")
            return text
        rest = text[m.end():]
        return text[: m.end()] + "\n" + lets + ("    " + rest.strip(" ") if not rest.startswith("\n") else rest[1:])

    ans_out = [re.sub(r"\0M(.*?)\0(.*)$", lambda m: paths(with_macros(m[2], m[1]), m[1]).strip("\n"), a, flags=re.S) for a in ans_out]
    # what is left: lemmas of the file
    lemmas = []
    for g in groups:
        t = "\n".join(g[1]).rstrip()
        com = "\n".join(c for c in g[2] if c.strip())
        if re.search(r":\s*tie\.Need-", t):
            told(f, f"goal {g[0]} is given to nothing: {t[:300]!r}" if not re.search(r"= search rules\s*$", t) else f"goal {g[0]} is gone")
            continue
        lemmas.append((g[0], (com + "\n" if com else "") + paths(t)))
    # names of this file that the invariants use go with them
    inv_text = "\n".join(i[0] for i in inv_out)
    in_inv, more = [], True
    while more:
        more = False
        for h, t in lemmas:
            if h and (h, t) not in in_inv and re.search(rf"(?<![\w'-]){re.escape(h)}(?![\w'-])", inv_text + "\n".join(x[1] for x in in_inv)):
                in_inv.append((h, t))
                more = True
    in_inv = [x for x in lemmas if x in in_inv]
    in_ans = [x for x in lemmas if x not in in_inv]
    keep_uses = [u for b, u in uses if not re.search(r"\.(Tie|Statement)\b", u)]

    def needed(body, lines):
        """The use lines with only the names that the body has."""
        out = []
        words = set(re.findall(rf"{NAME}", body))
        for u in lines:
            m = re.match(r"(use [^{]*\{)([^}]*)(\}.*)", u, re.S)
            if not m:
                out.append(u)
                continue
            keepers = []
            for n in [x.strip() for x in m[2].split(",") if x.strip()]:
                local = n.split(" as ")[-1]
                parts = [p for p in local.split("◌") if p.strip()]
                if "◌" in local:
                    hit = all(p.strip() in body for p in parts)
                else:
                    hit = local in words or local in body
                if hit:
                    keepers.append(n)
            if keepers:
                out.append(m[1] + ", ".join(keepers) + m[3])
        return out

    headline = "\n".join(comment)
    made = []
    if inv_out:
        body = "\n\n".join([x[1].replace("abbrev ", "abbrev pub ", 1) if x[1].startswith("abbrev ") and not x[1].startswith("abbrev pub") else x[1] for x in in_inv] + [i[0] for i in inv_out])
        us = needed(body, keep_uses) + [f"use Rattle.{name}.proofs.{f}.Given as goal"]
        made.append(("Invariants.antt", (headline + "\n" if headline else "") + "\n".join(us) + "\n\n" + body + "\n"))
    if ans_out:
        body = "\n\n".join([x[1] for x in in_ans] + ans_out)
        us = needed(body, keep_uses)
        for h, t in in_inv:
            if re.search(rf"(?<![\w'-]){re.escape(h)}(?![\w'-])", body):
                us.append(f"use Rattle.{name}.proofs.{f}.Invariants.{{{h}}}")
        us.append(f"use Rattle.{name}.proofs.{f}.Goals as goal")
        made.append(("Answers.antt", (headline + "\n" if headline else "") + "\n".join(us) + "\n\n" + body + "\n"))
    os.makedirs(folder, exist_ok=True)
    for n in ("Proof.antt", "Invariants.antt", "Answers.antt"):
        p = os.path.join(folder, n)
        if os.path.exists(p):
            os.remove(p)
    for n, t in made:
        open(os.path.join(folder, n), "w", encoding="utf-8").write(t)
    if not made and os.path.isdir(folder) and not os.listdir(folder):
        os.rmdir(folder)


def main():
    names_file, crate = sys.argv[1], sys.argv[2].rstrip("/")
    rest = sys.argv[3:]
    keep = None
    if "--none" in rest:
        rest.remove("--none")
        keep = set()
    if "--only" in rest:
        i = rest.index("--only")
        keep = set(rest[i + 1].split(","))
        del rest[i:i + 2]
    names = json.load(open(names_file))
    folder = os.path.join(crate, "proofs")
    name = os.path.basename(crate)
    all_f = sorted(
        {d for d in os.listdir(folder) if os.path.exists(os.path.join(folder, d, "Proof.antt"))} | {f[:-5] for f in (os.listdir(os.path.join(OLD, name)) if os.path.isdir(os.path.join(OLD, name)) else [])}
    ) if os.path.isdir(folder) else []
    for f in all_f:
        if rest and f not in rest:
            continue
        convert(names, crate, f, keep, lambda f, s: print(f"{name}/{f}: {s}"))


if __name__ == "__main__":
    main()
