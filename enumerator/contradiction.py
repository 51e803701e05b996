"""A smallest set of rules of a sheet that no endless course keeps together
(refusal 9), and how far a course can keep them."""

from collections import namedtuple

from limits import SITUATIONS
from situations import explore, judge_of
from table import followed_forever, live_situations

# Letters tried in one search over situations and in all searches, and choices
# tried in all for a least set that meets others.
SEARCH_LETTERS = 65_536
ALL_LETTERS = 2_000_000
CHOICES = 200_000

# rules: the numbers of the rules from 0.  is_least: whether no set of fewer
# rules contradicts itself; otherwise only none of these can be left out.
Contradiction = namedtuple("Contradiction", "rules is_least")


class Rules:
    """The rules of a sheet, of which sets are judged.  A search that would
    go over too many letters leaves open whether there is a solution, and
    counts as if there were one."""

    def __init__(self, sheet):
        self.sheet, self.judged, self.is_open = sheet, {}, False
        self.everything = frozenset(range(len(sheet.constraints)))
        self.letters_left, self.choices_left = ALL_LETTERS, CHOICES

    def graph(self, rules):
        chosen = [self.sheet.constraints[rule] for rule in sorted(rules)]
        judge = judge_of(self.sheet._replace(constraints=chosen))
        if rules == self.everything:
            return explore(judge, SITUATIONS)
        bound = min(SITUATIONS, SEARCH_LETTERS // len(judge.letters))
        graph = explore(judge, bound) if self.letters_left > 0 else None
        met = bound if graph is None else len(graph.situations)
        self.letters_left -= met * len(judge.letters)
        return graph

    def have_solution(self, rules):
        rules = frozenset(rules)
        if rules not in self.judged:
            graph = self.graph(rules)
            if graph is None:
                self.is_open = True
            self.judged[rules] = graph is None or (
                graph.situations[0] in live_situations(graph))
        return self.judged[rules]

    def reduced(self, rules):
        """The set without rules that can be left out one by one, with no
        solution as before."""
        kept = set(rules)
        for rule in sorted(rules, reverse=True):
            if not self.have_solution(kept - {rule}):
                kept.remove(rule)
        return kept

    def grown(self, rules):
        """The set, which has a solution, with further rules one by one."""
        kept = set(rules)
        for rule in sorted(self.everything - kept):
            if self.have_solution(kept | {rule}):
                kept.add(rule)
        return kept

    def meeting(self, sets, size, chosen=frozenset()):
        """A set with the chosen rules and at most `size` more that meets each
        of the sets, or None; the search ends where too many are tried."""
        unmet = [others for others in sets if others.isdisjoint(chosen)]
        if not unmet:
            return chosen
        for rule in sorted(min(unmet, key=len)) if size else ():
            self.choices_left -= 1
            if self.choices_left < 0:
                self.is_open = True
                return None
            found = self.meeting(sets, size - 1, chosen | {rule})
            if found is not None:
                return found
        return None

    def least_meeting(self, sets, below):
        """A least set, of fewer rules than the bound, that meets each of the
        sets; or None."""
        tried = (self.meeting(sets, size) for size in range(1, below))
        return next((found for found in tried if found is not None), None)


def contradiction(sheet):
    """A smallest set of rules without a solution, of a sheet that has none.

    Every such set meets the rules left over by each set that has a solution.
    A least set that meets all that are known either has no solution, and is
    then a smallest one, or is grown and tells of one set more."""
    rules = Rules(sheet)
    found, known = rules.reduced(rules.everything), []
    while True:
        chosen = rules.least_meeting(known, len(found))
        if chosen is None:
            return Contradiction(sorted(found), not rules.is_open)
        if not rules.have_solution(chosen):
            return Contradiction(sorted(chosen), not rules.is_open)
        known.append(rules.everything - rules.grown(chosen))


def longest_record(sheet, rules):
    """A longest record that keeps the rules, or None if they can be kept for
    ever, so that what is missing is an `until` that comes about."""
    graph = Rules(sheet).graph(frozenset(rules))
    targets = {here: set(graph.successors[here].values())
               for here in graph.situations}
    if followed_forever(graph.situations, targets):
        return None
    longest = {}
    for here in reversed(sorted_by_edges(graph)):
        after = [longest[there] + 1 for there in targets[here]]
        longest[here] = max(after, default=0)
    here, record = graph.situations[0], []
    while longest[here]:
        number, here = next(
            (number, there) for number, there
            in sorted(graph.successors[here].items())
            if longest[there] == longest[here] - 1)
        record.append(number)
    return record


def sorted_by_edges(graph):
    """The situations of a graph without cycles, each before those after it."""
    order, met = [], set()
    waiting = [(graph.situations[0], False)]
    while waiting:
        here, is_done = waiting.pop()
        if is_done:
            order.append(here)
        elif here not in met:
            met.add(here)
            waiting.append((here, True))
            waiting += [(there, False)
                        for there in graph.successors[here].values()]
    return order[::-1]
