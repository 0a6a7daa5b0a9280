"""How large the diagrams of a machine's roots are, written from the definition in docs/formats/measures.md: a count
of truth lists. Functions of few bits are truth lists, as numbers; those of more bits are nodes of a plain diagram, which tests of this
file compare with the lists.

Formulas are those of vbe_oracle.py; here each operator has two operands, and each choice one condition: 0, 1, ("bit", bit),
("not", f), ("pair", operator, f, f), ("choice", condition, f, f).
"""

from typing import NamedTuple

from .models import OUT

MOST_LISTED = 10
GATES = {
    "and": lambda a, b: a & b, "or": lambda a, b: a | b, "xor": lambda a, b: a ^ b,
    "nand": lambda a, b: 1 - (a & b), "nor": lambda a, b: 1 - (a | b), "xnor": lambda a, b: 1 - (a ^ b),
}


def plain(formula):
    """The formula with two operands an operator, grouped from the left, and one condition a choice."""
    if isinstance(formula, int) or formula[0] == "bit":
        return formula
    if formula[0] == "not":
        return ("not", plain(formula[1]))
    if formula[0] == "join":
        first, *others = map(plain, formula[2])
        for other in others:
            first = ("pair", formula[1], first, other)
        return first
    last = plain(formula[2])
    for condition, value in reversed(formula[1]):
        last = ("choice", plain(condition), plain(value), last)
    return last


def parts(formula):
    """The operands, from left to right."""
    if isinstance(formula, int) or formula[0] == "bit":
        return ()
    return formula[2:] if formula[0] == "pair" else formula[1:]


class Root(NamedTuple):
    name: tuple
    formula: object


def roots(m):
    """What outputs show in the order of names, and then next and enable of each register in the order of names."""
    of_bit = dict(m.equations)
    found = [Root(bit, plain(of_bit[bit])) for bit in sorted(bit for bit, way in m.ports.items() if way == OUT)]
    for bit in sorted(m.registers):
        found += [Root(bit, plain(formula)) for formula in m.registers[bit]]
    return found


class Walk:
    """The inputs and registers that an expansion reads, in the order in which a walk from left to right first meets them, and the
    inner signals that it goes through."""

    def __init__(self, equations, formula):
        self.order, self.met = [], set()
        waiting = [formula]
        while waiting:
            f = waiting.pop()
            if not isinstance(f, int) and f[0] == "bit":
                if f[1] in self.met:
                    continue
                self.met.add(f[1])
                if f[1] in equations:
                    waiting.append(equations[f[1]])
                else:
                    self.order.append(f[1])
            waiting += reversed(parts(f))


class Lists:
    """Functions of n bits as truth lists: bit i of a number is the value where the bits are those of i, the first one the highest."""

    def __init__(self, count):
        self.count, self.ones = count, (1 << (1 << count)) - 1

    def constant(self, bit):
        return self.ones if bit else 0

    def variable(self, k):
        half = 1 << (self.count - 1 - k)
        block = ((1 << half) - 1) << half
        return sum(block << at for at in range(0, 1 << self.count, 2 * half))

    def gate(self, operator, a, b):
        value = {"and": a & b, "or": a | b, "xor": a ^ b, "nand": ~(a & b), "nor": ~(a | b), "xnor": ~(a ^ b)}[operator]
        return value & self.ones

    def choice(self, c, a, b):
        return (c & a) | (self.ones & ~c & b)

    def size(self, functions):
        """How many lists with unequal halves there are among these, their halves, the halves of those and so on."""
        counted, seen, waiting = 0, set(), [(self.count, f) for f in functions]
        while waiting:
            level, f = waiting.pop()
            if level == 0 or (level, f) in seen:
                continue
            seen.add((level, f))
            half = 1 << (level - 1)
            low, high = f & ((1 << half) - 1), f >> half
            counted += low != high
            waiting += [(level - 1, low), (level - 1, high)]
        return counted


class Nodes:
    """Functions of any number of bits as nodes of a diagram: 0 and 1 are the constants, and node k of the list is
    (variable, low, high)."""

    def __init__(self, count):
        self.count, self.nodes, self.numbers, self.known = count, [None, None], {}, {}

    def node(self, variable, low, high):
        if low == high:
            return low
        key = (variable, low, high)
        if key not in self.numbers:
            self.numbers[key] = len(self.nodes)
            self.nodes.append(key)
        return self.numbers[key]

    def constant(self, bit):
        return int(bool(bit))

    def variable(self, k):
        return self.node(k, 0, 1)

    def halves(self, f, variable):
        return self.nodes[f][1:] if f > 1 and self.nodes[f][0] == variable else (f, f)

    def combined(self, name, operator, *functions):
        key = (name, *functions)
        if key in self.known:
            return self.known[key]
        variable = min((self.nodes[f][0] for f in functions if f > 1), default=None)
        if variable is None:
            made = operator(*functions)
        else:
            low, high = zip(*(self.halves(f, variable) for f in functions))
            made = self.node(variable, self.combined(name, operator, *low), self.combined(name, operator, *high))
        self.known[key] = made
        return made

    def gate(self, operator, a, b):
        return self.combined(operator, GATES[operator], a, b)

    def choice(self, c, a, b):
        return self.combined("choice", lambda c, a, b: a if c else b, c, a, b)

    def size(self, functions):
        met, waiting = set(), list(functions)
        while waiting:
            f = waiting.pop()
            if f > 1 and f not in met:
                met.add(f)
                waiting += self.nodes[f][1:]
        return len(met)


class Diagram:
    """Of a root: the functions of all subexpressions of its expansion, and its own."""

    def __init__(self, m, formula, order=None, kind=None):
        equations = {bit: plain(f) for bit, f in m.equations}
        walk = Walk(equations, formula)
        self.order = walk.order if order is None else order
        self.functions = (kind or (Lists if len(self.order) <= MOST_LISTED else Nodes))(len(self.order))
        self.of_bit = {bit: self.functions.variable(k) for k, bit in enumerate(self.order)}
        self.asked = {self.of_bit[bit] for bit in walk.order}
        for bit, _ in m.equations:
            if bit in walk.met:
                self.of_bit[bit] = self.value(equations[bit])
        self.own = self.value(formula)

    def value(self, formula):
        """The function of a formula, which is asked for with all its operands. The operands of the operands come first."""
        done, waiting = [], [(formula, False)]
        while waiting:
            f, is_ready = waiting.pop()
            if not is_ready:
                waiting.append((f, True))
                waiting += [(part, False) for part in reversed(parts(f))]
                continue
            values = done[len(done) - len(parts(f)) :]
            del done[len(done) - len(parts(f)) :]
            done.append(self.own_value(f, values))
            self.asked.add(done[-1])
        return done[0]

    def own_value(self, f, values):
        if isinstance(f, int):
            return self.functions.constant(f)
        if f[0] == "bit":
            return self.of_bit[f[1]]
        if f[0] == "not":
            return self.functions.gate("nand", values[0], values[0])
        return self.functions.gate(f[1], *values) if f[0] == "pair" else self.functions.choice(*values)

    def dcount(self):
        return self.functions.size(self.asked)

    def dag(self):
        return self.functions.size([self.own])


class Sizes(NamedTuple):
    name: tuple
    dcount: int
    dag: int


def sizes(m):
    """Of each root its name, and the nodes of its diagram, with all subexpressions and alone."""
    return [Sizes(r.name, d.dcount(), d.dag()) for r in roots(m) for d in [Diagram(m, r.formula)]]


def greatest(m):
    return max((s.dcount for s in sizes(m)), default=0)


def first_over(m, budget):
    """The name of the first root that is over the budget, or None."""
    return next((s.name for s in sizes(m) if s.dcount > budget), None)


def same_function(m, formula, o, other):
    """Whether two roots of two machines are one function."""
    order = Walk({bit: plain(f) for bit, f in m.equations}, formula).order
    order += [bit for bit in Walk({bit: plain(f) for bit, f in o.equations}, other).order if bit not in order]
    nodes = Nodes(len(order))
    kind = lambda _: nodes
    return Diagram(m, formula, order, kind).own == Diagram(o, other, order, kind).own
