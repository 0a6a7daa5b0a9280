"""Whether two functions are one, over any bits: under all values of these where that takes few steps, else by diagrams as long as these are small,
else under many values taken at random.

Formulas are those of vbe_oracle.py. A Function is a formula with the equations of the signals that it reads; what no equation gives is a bit of
an input or a register. The same formula object is computed once, so that formulas may share parts. Nothing here calls itself as deep as
equations are long.

A step is one operation on 65,536 values at once, or a node that is asked of a diagram. All functions that are compared with one Budget have its
steps together; when they are spent, the others are compared at random, which takes a step for each operation and no more.
"""

import functools
import random
from typing import NamedTuple, Optional

from .diagrams import Nodes

ALL, DIAGRAMS, VECTORS = "all values", "diagrams", "vectors"
AT_ONCE = 16  # bits, all of whose values are one number
MOST_LISTED = 1000000  # steps of one function under all values
NODES, STEPS, COUNT = 200000, 10000000, 65536


class Function(NamedTuple):
    formula: object
    equations: dict


TRUE = Function(1, {})


class Answer(NamedTuple):
    """How two functions were compared, and the values of bits under which they differ, or None."""

    way: str
    values: Optional[dict]


class OverBudget(Exception):
    pass


class Budget:
    """The most nodes of a diagram, and the steps that are left for all functions."""

    def __init__(self, nodes=NODES, steps=STEPS):
        self.nodes, self.steps = nodes, steps


# ---- what is computed


class Plan:
    """Functions as operations, each on results of earlier ones: ("constant", value), ("bit", number), a gate with two places, or ("choice", place of
    the condition, of what is given where it is 1, and of what else). `bits` are the bits in the order in which they are met."""

    def __init__(self, functions):
        self.bits, self.operations, self.places = {}, [], {}
        self.roots = [self.added(function) for function in functions]

    def added(self, function):
        """The place of a function's result."""
        equations, waiting = function.equations, [(function.formula, False)]
        while waiting:
            f, is_ready = waiting.pop()
            key = self.key(f, equations)
            if key in self.places:
                continue
            if is_ready:
                self.places[key] = self.emitted(f, equations)
                continue
            waiting.append((f, True))
            waiting += [(part, False) for part in reversed(parts(f, equations))]
        return self.places[self.key(function.formula, equations)]

    @staticmethod
    def key(f, equations):
        """What tells a formula from others; bits of one name are one."""
        if isinstance(f, int):
            return f
        return id(equations), f[1] if f[0] == "bit" else id(f)

    def operation(self, *words):
        self.operations.append(words)
        return len(self.operations) - 1

    def emitted(self, f, equations):
        """The place of a formula whose parts have places."""
        if isinstance(f, int):
            return self.operation("constant", f)
        given = [self.places[self.key(part, equations)] for part in parts(f, equations)]
        if f[0] == "bit":
            return given[0] if given else self.operation("bit", self.bits.setdefault(f[1], len(self.bits)))
        if f[0] == "not":
            return self.operation("nand", given[0], given[0])
        if f[0] == "join":
            first, *others = given
            for other in others:
                first = self.operation(f[1], first, other)
            return first
        *pairs, last = given
        for k in reversed(range(0, len(pairs), 2)):
            last = self.operation("choice", pairs[k], pairs[k + 1], last)
        return last

    def differing(self, algebra):
        """Where the first two functions differ and the third is 1."""
        done = []
        for name, *given in self.operations:
            if name == "constant":
                done.append(algebra.constant(given[0]))
            elif name == "bit":
                done.append(algebra.variable(given[0]))
            elif name == "choice":
                done.append(algebra.choice(*(done[place] for place in given)))
            else:
                done.append(algebra.gate(name, done[given[0]], done[given[1]]))
        one, other, care = (done[place] for place in self.roots)
        return algebra.gate("and", care, algebra.gate("xor", one, other))


def parts(f, equations):
    """The formulas that a formula reads, from left to right."""
    if isinstance(f, int):
        return []
    if f[0] == "bit":
        return [equations[f[1]]] if f[1] in equations else []
    if f[0] == "choice":
        return [part for pair in f[1] for part in pair] + [f[2]]
    return [f[1]] if f[0] == "not" else f[2]


# ---- algebras


class Lists:
    """Functions under some values of their bits, as numbers with a bit for each of these."""

    def __init__(self, size, variables):
        self.ones, self.variables = (1 << size) - 1, variables

    def constant(self, bit):
        return self.ones if bit else 0

    def variable(self, k):
        return self.variables[k]

    def gate(self, operator, a, b):
        if operator in ("and", "nand"):
            value = a & b
        elif operator in ("or", "nor"):
            value = a | b
        else:
            value = a ^ b
        return value if operator in ("and", "or", "xor") else value ^ self.ones

    def choice(self, c, a, b):
        return (c & a) | (c ^ self.ones) & b

    def values(self, found):
        """The values of the bits at a place where a function is 1."""
        at = (found & -found).bit_length() - 1
        return [variable >> at & 1 for variable in self.variables]


class SmallNodes(Nodes):
    """Nodes of diagrams, as long as there are few, and few are asked for."""

    def __init__(self, count, budget):
        super().__init__(count)
        self.most, self.steps = budget.nodes, budget.steps

    def node(self, variable, low, high):
        if len(self.nodes) > self.most or len(self.known) > self.steps:
            raise OverBudget
        return super().node(variable, low, high)

    def values(self, found):
        path = {}
        while found > 1:
            variable, low, high = self.nodes[found]
            path[variable] = int(low == 0)
            found = low or high
        return [path.get(k, 0) for k in range(self.count)]


@functools.cache
def listed(count):
    """The bits under all their values, each as a number: value k has them as the digits of k."""
    ones = (1 << (1 << count)) - 1
    return [ones // ((1 << 2 * period) - 1) * ((1 << period) - 1) << period for period in (1 << k for k in range(count))]


def all_lists(count):
    """Lists that have all values of so many bits together: those of the first AT_ONCE bits in each, the others by turns."""
    first = min(count, AT_ONCE)
    size = 1 << first
    for turn in range(1 << count - first):
        yield Lists(size, listed(first) + [(1 << size) - 1 if turn >> k & 1 else 0 for k in range(count - first)])


def random_lists(count, size, seed):
    source = random.Random(seed)
    return Lists(size, [source.getrandbits(size) for _ in range(count)])


# ---- the comparison


def found_in(plan, algebra):
    """The values of bits under which the functions differ, in the order of the plan, or None."""
    found = plan.differing(algebra)
    return dict(zip(plan.bits, algebra.values(found))) if found else None


def by_diagrams(plan, budget):
    nodes = SmallNodes(len(plan.bits), budget)
    try:
        return found_in(plan, nodes)
    finally:
        budget.steps -= min(len(nodes.known), budget.steps)


def compared(one, other, care, budget, count=COUNT, seed=1):
    """Compares two functions where a third is 1; `count` values are taken at random, from the seed."""
    plan = Plan([one, other, care])
    steps = len(plan.operations) << max(len(plan.bits) - AT_ONCE, 0)
    if steps <= min(MOST_LISTED, budget.steps):
        budget.steps -= steps
        tries = (found_in(plan, algebra) for algebra in all_lists(len(plan.bits)))
        return Answer(ALL, next((values for values in tries if values is not None), None))
    try:
        return Answer(DIAGRAMS, by_diagrams(plan, budget))
    except OverBudget:
        return Answer(VECTORS, found_in(plan, random_lists(len(plan.bits), count, seed)))
