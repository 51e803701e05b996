#!/usr/bin/env python3
"""Makes small graphs, computes the table of each by sets and Moore's refinement on dictionaries, and writes the files `stdin`
and `stdout` of the crate `minimise_vectors` below the folder of crates that it is given.

    python3 tests/minimise_vectors/make.py CRATES
"""
import os
import pathlib
import random
import sys

sys.path.insert(0, str(pathlib.Path(__file__).resolve().parents[2] / "enumerator"))
from commands import folders  # noqa: E402

NONE = 65535
WORK = 6


def is_graph(letters, rows, entries, flags, works):
    """Whether the numbers are a graph in tables: sizes, flags that never fall, and nodes numbered as they are first met."""
    if letters < 1 or not 1 <= rows <= 4096 or rows > len(flags) or rows * letters > len(entries) or min(works) < rows:
        return False
    if any(f not in (0, 1) for f in flags[:rows]):
        return False
    order = [0]
    for s in range(rows):
        for a in range(letters):
            u = entries[s * letters + a]
            if u == NONE:
                continue
            if u >= rows or flags[s] > flags[u]:
                return False
            if u not in order:
                order.append(u)
    # the order in which a walk by rows meets the nodes; a row that is not met before it is walked breaks it
    return order == list(range(rows)) and all(
        s == 0 or any(entries[p * letters + a] == s for p in range(s) for a in range(letters)) for s in range(rows)
    )


def expected(letters, rows, entries, flags, works):
    """Refusal, states, entries and final bytes, with everything beyond the used rows zero."""
    zero = ([0] * len(entries), [0] * len(flags))
    if not is_graph(letters, rows, entries, flags, works):
        return (11, 0) + zero
    nodes = range(rows)
    edges = {s: {a: entries[s * letters + a] for a in range(letters) if entries[s * letters + a] != NONE} for s in nodes}

    def largest(inside):
        """The largest subset of `inside` in which each node has a successor."""
        while True:
            rest = {s for s in inside if any(u in inside for u in edges[s].values())}
            if rest == inside:
                return inside
            inside = rest

    endless = largest(set(nodes))
    live = {s for s in endless if flags[s]}
    while True:
        more = live | {s for s in nodes if any(u in live for u in edges[s].values())}
        if more == live:
            break
        live = more
    if 0 not in live:
        return (9, 0) + zero
    pending = largest({s for s in live if not flags[s]})
    final = {s: s not in pending for s in live}
    kind = {s: int(final[s]) for s in live}
    while True:
        shown = {s: (kind[s], tuple(kind[edges[s][a]] if edges[s].get(a) in live else -1 for a in range(letters))) for s in live}
        names = {}
        for s in sorted(live):
            names.setdefault(shown[s], len(names))
        fresh = {s: names[shown[s]] for s in live}
        if len(set(fresh.values())) == len(set(kind.values())):
            break
        kind = fresh
    number, queue = {kind[0]: 0}, [0]
    table, finals = [], []
    for s in queue:
        finals.append(int(final[s]))
        for a in range(letters):
            u = edges[s].get(a)
            if u not in live:
                table.append(NONE)
                continue
            if kind[u] not in number:
                number[kind[u]] = len(queue)
                queue.append(u)
            table.append(number[kind[u]])
    n = len(queue)
    return 0, n, table + [0] * (len(entries) - n * letters), finals + [0] * (len(flags) - n)


def renumbered(letters, edges, flags):
    """The part that node 0 reaches, numbered as it is first met, as (rows, entries, flags)."""
    order, at = [0], {0: 0}
    entries = []
    for s in order:
        for a in range(letters):
            u = edges[s][a]
            if u is None:
                entries.append(NONE)
                continue
            if u not in at:
                at[u] = len(order)
                order.append(u)
            entries.append(at[u])
    return len(order), entries, [flags[s] for s in order]


def rising(letters, edges, flags):
    """Flags that never fall: a node is flagged if some flagged node reaches it."""
    flags = list(flags)
    while True:
        fresh = [u for s in range(len(edges)) if flags[s] for u in edges[s] if u is not None and not flags[u]]
        if not fresh:
            return flags
        for u in fresh:
            flags[u] = 1


def random_graph(r, rows, letters, gaps, done):
    edges = [[None if r.random() < gaps else r.randrange(rows) for _ in range(letters)] for _ in range(rows)]
    flags = [int(r.random() < done) for _ in range(rows)]
    return renumbered(letters, edges, rising(letters, edges, flags))


def chain(letters, rows, loop, done):
    edges = [[s + 1 if s + 1 < rows else (s if loop else None)] + [None] * (letters - 1) for s in range(rows)]
    return renumbered(letters, edges, [int(done and s == rows - 1) for s in range(rows)])


def counter(rows):
    """Counts letter 1 up to the last row, which is done; letter 0 stays, and leaves every row pending."""
    edges = [[s, min(s + 1, rows - 1)] for s in range(rows)]
    return renumbered(2, edges, [int(s == rows - 1) for s in range(rows)])


def layers(r, depth, width, letters):
    """Rows of one layer all have one language, so each layer is one state."""
    edges = []
    for layer in range(depth):
        for _ in range(1 if layer == 0 else width):
            last = layer + 1 == depth
            first = 1 + (layer if not last else layer - 1) * width
            edges.append([first + r.randrange(width) if depth > 1 else 0 for _ in range(letters)])
    flags = [0] * (len(edges) - (width if depth > 1 else 1)) + [1] * (width if depth > 1 else 1)
    return renumbered(letters, edges, rising(letters, edges, flags))


def cases():
    r = random.Random(8)
    out = []

    def add(letters, graph, spare=0, works=None):
        rows, entries, flags = graph
        works = works or [rows + spare] * WORK
        out.append((letters, rows, entries + [r.randrange(65536) for _ in range(spare * letters + spare % 2)],
                    flags + [r.randrange(256) for _ in range(spare)], works))

    for i in range(24):
        letters = r.randrange(1, 5)
        add(letters, random_graph(r, r.randrange(1, 14), letters, r.choice([0.1, 0.4, 0.6]), r.choice([0.1, 0.3])), i % 4)
    add(1, (1, [0], [1]))
    add(1, (1, [0], [0]))
    add(1, (1, [NONE], [1]))
    add(2, (3, [1, 2, 1, NONE, NONE, 2], [0, 0, 1]), 3)
    for loop in (0, 1):
        for done in (0, 1):
            add(2, chain(2, 12, loop, done), 2)
    add(2, counter(9), 1)
    add(3, random_graph(r, 20, 3, 0.0, 1.0), 5)
    add(3, random_graph(r, 20, 3, 0.0, 0.0), 5)
    add(2, layers(r, 5, 4, 2), 3)
    add(3, layers(r, 4, 6, 3), 0)
    # a pending path that can go on for ever, and one that must meet a done row
    add(2, (2, [0, 1, 1, 1], [0, 1]))
    add(2, (3, [1, 1, 2, 2, 2, 2], [0, 0, 1]))
    # a flagged row without a way out is no solution
    add(1, (2, [1, NONE], [0, 1]))
    # rows that only a later letter tells apart
    add(2, (5, [1, 2, 3, NONE, 4, NONE, 3, 3, NONE, 4], [1, 1, 1, 1, 1]), 2)
    # no graphs: an entry that is no row, a flag that falls, a byte that is no flag, rows in another order, a row never met
    add(2, (2, [1, 2, 1, 1], [0, 1]), 1)
    add(1, (2, [1, 0], [0, 1]))
    add(1, (2, [1, 1], [0, 2]))
    add(2, (3, [2, 1, 0, 0, 0, 0], [0, 0, 0]))
    add(1, (3, [1, 0, 2], [1, 1, 1]))
    add(1, (2, [1, 65534], [0, 0]))
    # sizes: no letters, no rows, too few entries, flags or work rows, more rows than 4,096
    add(0, (1, [0], [1]))
    add(1, (0, [], []), 2)
    out.append((2, 2, [1, 1, 1], [1, 1], [2] * WORK))
    out.append((2, 2, [1, 1, 1, 1], [1], [2] * WORK))
    for i in range(WORK):
        out.append((2, 2, [1, 1, 1, 1], [1, 1], [1 if j == i else 2 for j in range(WORK)]))
    out.append((99999, 99999, [0, 1], [1, 1], [2] * WORK))
    return out


def main(crates):
    folder = os.path.join(crates, "minimise_vectors")
    os.makedirs(folder, exist_ok=True)
    given, answers = b"", []
    for letters, rows, entries, flags, works in cases():
        refusal, states, table, finals = expected(letters, rows, entries, flags, works)
        body = bytes(flags) + b"".join(x.to_bytes(2, "little") for x in entries)
        heading = [len(body), letters, rows, len(entries), len(flags)] + works
        given += b"".join(x.to_bytes(4, "little") for x in heading) + body
        answers.append(f"{refusal} {states} :" + "".join(f" {x}" for x in table) + " :" + "".join(f" {x}" for x in finals) + " : 0")
    with open(os.path.join(folder, "stdin"), "wb") as f:
        f.write(given)
    with open(os.path.join(folder, "stdout"), "w") as f:
        f.write("\n".join(answers) + "\n")
    kinds = {}
    for answer in answers:
        kinds[answer.split()[0]] = kinds.get(answer.split()[0], 0) + 1
    print(len(answers), "graphs; answers by refusal:", kinds)


if __name__ == "__main__":
    main(*folders(__doc__, "crates"))
