"""The table of a graph of situations (document 01, "Letters, situations,
table").

A continuation of a situation is an endless path from it on which every
`until` gets done.  Whether all are done never falls back along a path.
"""

from collections import namedtuple

from limits import NO_ENTRY

# entries: one list of next states for each state; finals: one truth value
# for each; leading: for each state one situation that has it.
Table = namedtuple("Table", "entries finals leading")


def followed_forever(nodes, targets):
    """The nodes from which an endless path stays among the nodes: the
    greatest set in which each node has a target.  It is empty exactly if
    there is no cycle."""
    kept = set(nodes)
    while True:
        stuck = {node for node in kept if kept.isdisjoint(targets[node])}
        if not stuck:
            return kept
        kept -= stuck


def leading_to(goals, nodes, targets):
    """The nodes from which a path among the nodes meets a goal: the least
    set with the goals in which each node with a target in it is."""
    found = set(goals)
    while True:
        more = {node for node in nodes
                if node not in found and not found.isdisjoint(targets[node])}
        if not more:
            return found
        found |= more


def live_situations(graph):
    """The situations with a continuation."""
    targets = {here: set(graph.successors[here].values())
               for here in graph.situations}
    endless = followed_forever(graph.situations, targets)
    return leading_to(endless & graph.done, endless, targets)


def live_successors(graph, live):
    return {here: {number: there
                   for number, there in graph.successors[here].items()
                   if there in live}
            for here in live}


def final_situations(graph, successors):
    """"A state is final if every endless path from it completes a solution":
    no endless path stays among situations with a pending `until`."""
    pending = set(successors) - graph.done
    targets = {here: set(successors[here].values()) for here in pending}
    return set(successors) - followed_forever(pending, targets)


class Partition:
    """What is known so far of which live situations have the same
    continuations.

    groups: for each situation the set of those known to have the same.
    settled: the situations whose groups are known to differ from one another.
    finals: "every endless path from it completes a solution" is a property of
    the continuations, so two situations that differ in it differ.
    """

    def __init__(self, situations, finals):
        self.groups = {here: {here} for here in situations}
        self.settled = set()
        self.finals = finals

    def is_known_same(self, left, right):
        return self.groups[left] is self.groups[right]

    def is_known_different(self, left, right):
        return ((left in self.finals) != (right in self.finals)
                or left in self.settled and right in self.settled
                and not self.is_known_same(left, right))

    def merge(self, left, right):
        """Notes that the two have the same continuations."""
        smaller, larger = sorted((self.groups[left], self.groups[right]),
                                 key=len)
        if smaller is larger:
            return
        larger |= smaller
        for member in smaller:
            self.groups[member] = larger
        if left in self.settled or right in self.settled:
            self.settled |= larger

    def settle(self, here):
        """Notes that the group of the situation differs from every settled
        one."""
        self.settled |= self.groups[here]


def product_pairs(left, right, successors, known):
    """The pairs of situations that one word leads to from the two, each with
    the pairs after it; None if a word can be followed from one only, or leads
    to a pair known to differ.  From a pair known to be the same no word parts
    the two, so it is left out."""
    pairs = {}
    waiting = [(left, right)]
    while waiting:
        pair = waiting.pop()
        if pair in pairs or known.is_known_same(*pair):
            continue
        after_left, after_right = (successors[side] for side in pair)
        if (after_left.keys() != after_right.keys()
                or known.is_known_different(*pair)):
            return None
        pairs[pair] = {(after_left[number], after_right[number])
                       for number in after_left}
        waiting.extend(pairs[pair])
    return pairs


def same_pairs(left, right, successors, done, known):
    """None if two live situations have different continuations.  They differ
    exactly if some ultimately periodic word is a continuation of one only:
    it leaves the live situations of the other, or its loop is a cycle of
    pairs with every `until` done on one side and not on the other.
    If they do not differ, neither do the two of any pair met on the way, and
    all these pairs are given."""
    pairs = product_pairs(left, right, successors, known)
    if pairs is None:
        return None
    parted = {pair for pair in pairs
              if (pair[0] in done) != (pair[1] in done)}
    return None if followed_forever(parted, pairs) else pairs


def settle(here, chosen, successors, done, known):
    """Finds the one of the chosen situations with the same continuations as
    this one, or makes this one a chosen one."""
    for other in chosen:
        if known.is_known_same(here, other):
            return
        pairs = same_pairs(here, other, successors, done, known)
        if pairs is not None:
            for pair in pairs:
                known.merge(*pair)
            return
    known.settle(here)
    chosen.append(here)


def partition(graph, successors, finals):
    """For each live situation the first met one with the same continuations.
    The last met ones are settled first: most words from a situation lead to
    later ones, so what is known decides most pairs at once."""
    known = Partition(successors, finals)
    chosen = {}
    order = [here for here in graph.situations if here in successors]
    for here in reversed(order):
        alike = chosen.setdefault(frozenset(successors[here]), [])
        settle(here, alike, successors, graph.done, known)
    first_of = {}
    for here in order:
        if here not in first_of:
            first_of.update(dict.fromkeys(known.groups[here], here))
    return first_of


def table_of(graph, letter_total):
    """The table, or None if there is no solution.  "State 0 is the start;
    others are numbered in the order in which they are first met, state by
    state and letter by letter." """
    successors = live_successors(graph, live_situations(graph))
    start = graph.situations[0]
    if start not in successors:
        return None
    finals = final_situations(graph, successors)
    first_of = partition(graph, successors, finals)
    leading = [first_of[start]]
    numbers = {first_of[start]: 0}
    entries = []
    for here in leading:
        row = []
        for letter in range(letter_total):
            there = successors[here].get(letter)
            if there is None:
                row.append(NO_ENTRY)
                continue
            target = first_of[there]
            if target not in numbers:
                numbers[target] = len(leading)
                leading.append(target)
            row.append(numbers[target])
        entries.append(row)
    return Table(entries, [here in finals for here in leading], leading)
