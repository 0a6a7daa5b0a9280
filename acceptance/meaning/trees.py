"""The least area of covers of a source's trees, written from docs/formats/netlists.md ("Trees and their least area").

`Trees(graph)` has the trees of a graph of mapping.py. `Covers` gives the least area of each gate's covers from least areas below it, over
cuts that are joined from those of its operands; `EveryCover` finds all areas that covers of a gate have: it tries each set of nodes for a
cut, and each cell at it. The second is for small trees alone.
"""

import itertools
from collections import Counter

from acceptance.meaning.mapping import INV, NAND, all_vectors, is_gate, ones, worth

MOST_MEMBERS, COLUMN = 6, 500


class Trees:
    """Which gates belong to the trees of the gates that read them, and the roots of the trees, among the gates that outputs and registers
    need."""

    def __init__(self, graph):
        self.graph = graph
        self.gates = [number for number in graph.live() if graph.nodes[number][0] in (INV, NAND)]
        read = [son for number in self.gates for son in graph.sons(number)]
        shown = {*graph.outputs.values(), *graph.loads.values()}
        uses = Counter(read)
        self.inner = {number for number in self.gates if uses[number] == 1 and number not in shown}
        self.roots = [number for number in self.gates if number not in self.inner]

    def is_inner(self, number):
        return number in self.inner

    def word(self, number, members):
        """The function of a gate over members of a cut, in their order: a bit for each row."""
        known = dict(zip(members, all_vectors(len(members))))
        return self.word_over(number, known, ones(len(members)))

    def word_over(self, number, known, every):
        if number in known:
            return known[number]
        words = [self.word_over(son, known, every) for son in self.graph.sons(number)]
        return every & ~(words[0] & words[-1])


def widths_of(models, cells):
    """The widths in columns of the usable gates, by how many inputs they have and by each word that they show under an order of these."""
    found = {}
    for model in filter(is_gate, models.values()):
        count, table, width = len(model.inputs), model.table(), cells[model.name].width // COLUMN
        for order in set(itertools.permutations(all_vectors(count))):
            found.setdefault((count, worth(table, order, ones(count))), set()).add(width)
    return found


class Covers:
    """For each gate the least area of a cover of its tree from it on down."""

    def __init__(self, graph, widths):
        self.trees, self.least, self.cuts = Trees(graph), {}, {}
        narrow = {key: min(found) for key, found in widths.items()}
        for number in self.trees.gates:
            self.cuts[number] = self.cuts_of(number)
            self.least[number] = min(self.areas(number, narrow))

    def parts(self, number):
        """The sets of members by which a gate may read this node."""
        return [frozenset([number]), *(self.cuts[number] if self.trees.is_inner(number) else ())]

    def cuts_of(self, number):
        first, *others = [self.parts(son) for son in self.trees.graph.sons(number)]
        for other in others:
            first = {a | b for a in first for b in other if len(a | b) <= MOST_MEMBERS}
        return set(first)

    def areas(self, number, narrow):
        for cut in self.cuts[number]:
            members = sorted(cut)
            width = narrow.get((len(members), self.trees.word(number, members)))
            if width is not None:
                yield width + sum(self.least[member] for member in members if self.trees.is_inner(member))

    def area(self):
        return sum(self.least[root] for root in self.trees.roots)


class EveryCover:
    """For each gate that is asked for the areas of all covers of its tree from it on down."""

    def __init__(self, graph, widths):
        self.trees, self.widths, self.known = Trees(graph), widths, {}

    def below(self, number):
        """The nodes that lie below a gate in its tree, and those that the tree reads."""
        found, waiting = set(), [number]
        while waiting:
            for son in self.trees.graph.sons(waiting.pop()):
                if son not in found:
                    found.add(son)
                    waiting += [son] if self.trees.is_inner(son) else []
        return found

    def is_cut(self, number, members):
        """Whether each way down from a gate meets the members before it leaves the tree, and each member is met."""
        met, waiting = set(), list(self.trees.graph.sons(number))
        while waiting:
            node = waiting.pop()
            if node in members:
                met.add(node)
            elif self.trees.is_inner(node):
                waiting += self.trees.graph.sons(node)
            else:
                return False
        return met == members

    def cuts(self, number):
        nodes = sorted(self.below(number))
        for many in range(1, MOST_MEMBERS + 1):
            for members in itertools.combinations(nodes, many):
                if self.is_cut(number, set(members)):
                    yield members

    def areas(self, number):
        if number not in self.known:
            found = set()
            for members in self.cuts(number):
                for width in self.widths.get((len(members), self.trees.word(number, members)), ()):
                    sums = {width}
                    for member in filter(self.trees.is_inner, members):
                        sums = {one + other for one in sums for other in self.areas(member)}
                    found |= sums
            self.known[number] = found
        return self.known[number]

    def is_small(self, most):
        """Whether no tree has more nodes at and below its root than so many."""
        return all(len(self.below(root)) <= most for root in self.trees.roots)

    def area(self):
        return sum(min(self.areas(root)) for root in self.trees.roots)
