"""The graph of a data-flow machine, and what a netlist mapped from it has to be, written from docs/formats/netlists.md and
measures.md: how large a machine is, its graph, and what isn't as it has to be in a netlist that covers the graph. Which of the covers it is
is open; so functions are compared by their values under many vectors, and that no cell could stand for two gates is tried on every pair.
"""

import itertools
import random
from collections import Counter

from share.formats.models import IN, OUT, first_of

WEIGHTS = {"nand": 1, "and": 2, "or": 3, "nor": 4, "xor": 4, "xnor": 5}
CHOICE, OUTPUT, REGISTER, MOST_SIZE = 4, 2, 5, 16384
ZERO, ONE, INV, NAND = "zero", "one", "inv", "nand2"
# so many bits are tried in all vectors, and more in 2 ** MOST_BITS vectors of chance
MOST_BITS = 12


# ---- sizes


def formula_size(formula):
    if isinstance(formula, int) or formula[0] == "bit":
        return 0
    if formula[0] == "not":
        return 1 + formula_size(formula[1])
    if formula[0] == "join":
        return WEIGHTS[formula[1]] * (len(formula[2]) - 1) + sum(map(formula_size, formula[2]))
    return formula_size(formula[2]) + sum(CHOICE + formula_size(c) + formula_size(f) for c, f in formula[1])


def machine_size(m):
    loads = sum(formula_size(f) for pair in m.registers.values() for f in pair)
    outputs = sum(way == OUT for way in m.ports.values())
    return sum(formula_size(f) for _, f in m.equations) + loads + OUTPUT * outputs + REGISTER * len(m.registers)


# ---- the graph


class Graph:
    """Nodes are (kind, sons..): ("input", bit), ("register", bit), ("zero",), ("one",), ("inv", n), ("nand2", n, n). A son is
    the number of an earlier node."""

    def __init__(self, m):
        self.nodes, self.numbers = [], {}
        self.of_bit = {bit: self.node("input", bit) for bit, way in m.ports.items() if way == IN}
        self.of_bit.update((bit, self.node("register", bit)) for bit in sorted(m.registers))
        for bit, formula in m.equations:
            self.of_bit[bit] = self.value(formula)
        self.loads = {bit: self.load(bit, *m.registers[bit]) for bit in sorted(m.registers)}
        self.outputs, taken = {}, set()
        for bit in sorted(bit for bit, way in m.ports.items() if way == OUT):
            number = self.of_bit[bit]
            # an input, or the node of an output before, is shown through two further inverters
            is_taken = self.nodes[number][0] == "input" or number in taken
            taken.add(number)
            self.outputs[bit] = self.further(INV, self.further(INV, number)) if is_taken else number

    def node(self, *key):
        if key not in self.numbers:
            self.numbers[key] = self.further(*key)
        return self.numbers[key]

    def further(self, *key):
        """A node beside any that is the same."""
        self.nodes.append(key)
        return len(self.nodes) - 1

    def inv(self, a):
        kind = self.nodes[a][0]
        if kind == INV:
            return self.nodes[a][1]
        return self.node(ONE if kind == ZERO else ZERO) if kind in (ZERO, ONE) else self.node(INV, a)

    def nand(self, a, b):
        kinds = {self.nodes[a][0], self.nodes[b][0]}
        if ZERO in kinds:
            return self.node(ONE)
        if self.nodes[a][0] == ONE:
            return self.inv(b)
        if self.nodes[b][0] == ONE or a == b:
            return self.inv(a)
        return self.node(NAND, *sorted((a, b)))

    def xor(self, a, b):
        n = self.nand(a, b)
        return self.nand(self.nand(a, n), self.nand(b, n))

    def joined(self, word, a, b):
        if word in ("and", "nand"):
            n = self.nand(a, b)
            return self.inv(n) if word == "and" else n
        n = self.nand(self.inv(a), self.inv(b)) if word in ("or", "nor") else self.xor(a, b)
        return self.inv(n) if word in ("nor", "xnor") else n

    def choice(self, condition, a, b):
        return self.nand(self.nand(condition, a), self.nand(self.inv(condition), b))

    def value(self, formula):
        if isinstance(formula, int):
            return self.node(ONE if formula else ZERO)
        if formula[0] == "bit":
            return self.of_bit[formula[1]]
        if formula[0] == "not":
            return self.inv(self.value(formula[1]))
        if formula[0] == "join":
            first, *others = map(self.value, formula[2])
            for other in others:
                first = self.joined(formula[1], first, other)
            return first
        last = self.value(formula[2])
        for condition, value in reversed(formula[1]):
            last = self.choice(self.value(condition), self.value(value), last)
        return last

    def load(self, bit, then, enable):
        if enable == 1:
            return self.value(then)
        return self.choice(self.value(enable), self.value(then), self.of_bit[bit])

    def live(self):
        """The nodes of logic to which the roots lead, in their order."""
        met, waiting = set(), [*self.outputs.values(), *self.loads.values()]
        while waiting:
            number = waiting.pop()
            if number not in met:
                met.add(number)
                waiting += self.sons(number)
        return [number for number in sorted(met) if self.is_logic(number)]

    def is_logic(self, number):
        return self.nodes[number][0] in (ZERO, ONE, INV, NAND)

    def sons(self, number):
        return self.nodes[number][1:] if self.nodes[number][0] in (INV, NAND) else ()

    def most_cells(self):
        """One for each register, and one for each node of logic to which a root leads."""
        return len(self.loads) + len(self.live())

    def most_inputs(self):
        """Those of gates: two for each node of logic."""
        return 2 * sum(map(self.is_logic, range(len(self.nodes))))

    def values(self, given, every):
        """The word of each node, from those of inputs and registers; `every` has a 1 for each vector."""
        found = []
        for kind, *sons in self.nodes:
            if kind in ("input", "register"):
                found.append(given[sons[0]])
            elif kind in (ZERO, ONE):
                found.append(every if kind == ONE else 0)
            else:
                found.append(every & ~(found[sons[0]] & found[sons[-1]]))
        return found


# ---- values under many vectors: a word has a bit for each vector


def worth(table, words, every):
    """The word of a gate with this table, from the words of its inputs."""
    if not words:
        return every if table[0] else 0
    half = len(table) // 2
    low, high = worth(table[:half], words[1:], every), worth(table[half:], words[1:], every)
    return (low & ~words[0]) | (high & words[0])


def ones(count):
    """The word with a 1 for each vector of so many bits."""
    return 2 ** 2**count - 1


def all_vectors(count):
    """The words of so many bits under all their vectors, of which the first bit changes the least often."""
    rows = range(2**count)
    return [sum((row >> count - 1 - at & 1) << row for row in rows) for at in range(count)]


def vectors(bits):
    """A word for each bit, and the word that has a 1 for each vector. Where not all vectors are taken a half has as many ones as zeros, a
    quarter few ones, and a quarter few zeros."""
    if len(bits) <= MOST_BITS:
        return dict(zip(bits, all_vectors(len(bits)))), ones(len(bits))
    choose, part, found = random.Random(len(bits)), 2**MOST_BITS // 4, {}
    for bit in bits:
        a, b, c, d, e = (choose.getrandbits(part) for _ in range(5))
        found[bit] = d | e << part | (a & b & c) << 2 * part | (a | b | c) << 3 * part
    return found, ones(MOST_BITS)


# ---- the netlist that is mapped


def is_gate(model):
    return model.is_usable and model.clock is None


def read_nets(instance):
    return [instance.nets[pin] for pin in instance.model.inputs]


def shown_net(instance):
    return instance.nets[instance.model.outputs[0]]


def order_faults(m, models, n):
    """Whether instances are q0, q1 and so on, of the first flip-flop, then g0, g1 and so on, each a gate that reads inputs, registers and
    gates before it."""
    registers = len(m.registers)
    first, others = n.instances[:registers], n.instances[registers:]
    if [i.name for i in n.instances] != [f"q{k}" for k in range(registers)] + [f"g{k}" for k in range(len(others))]:
        yield "the names of the instances"
    if any(i.model is not first_of(models, "dff") for i in first):
        yield "a register that isn't of the first flip-flop"
    known = {bit for bit, way in m.ports.items() if way == IN} | {i.nets[bit] for i in first for bit in i.model.outputs}
    for instance in others:
        if not is_gate(instance.model):
            yield f"{instance.name} is no gate that may be used"
        if any(net not in known for net in read_nets(instance)):
            yield f"the place of {instance.name}"
        known.update(instance.nets[bit] for bit in instance.model.outputs)


def lean_faults(m, n):
    """Each gate leads to an output or to a register."""
    registers, gates = n.instances[: len(m.registers)], n.instances[len(m.registers) :]
    needed = {bit for bit, way in m.ports.items() if way == OUT} | {i.nets[i.model.data()] for i in registers}
    for instance in reversed(gates):
        if shown_net(instance) not in needed:
            yield f"{instance.name} leads nowhere"
        else:
            needed.update(read_nets(instance))


# ---- no cell could stand for two gates


def words_of(models):
    """By the number of inputs, the words of all gates that may be used, under each order of their inputs."""
    found = {}
    for model in filter(is_gate, models.values()):
        count, table = len(model.inputs), model.table()
        orders = itertools.permutations(all_vectors(count))
        found.setdefault(count, set()).update(worth(table, order, ones(count)) for order in orders)
    return found


def pairs(m, n):
    """Two gates, of which the second alone reads what the first shows, by one pin, and nothing else does."""
    readers = {}
    for instance in n.instances:
        for net in read_nets(instance):
            readers.setdefault(net, []).append(instance)
    for first in n.instances[len(m.registers) :]:
        found = readers.get(shown_net(first), [])
        if shown_net(first) not in m.ports and len(found) == 1 and is_gate(found[0].model):
            yield first, found[0]


def tight_faults(m, models, n):
    had, tables = words_of(models), {model.name: model.table() for model in filter(is_gate, models.values())}
    for first, second in pairs(m, n):
        between = shown_net(first)
        leaves = sorted({*read_nets(first), *read_nets(second)} - {between})
        if len(leaves) not in had:
            continue
        every, words = ones(len(leaves)), dict(zip(leaves, all_vectors(len(leaves))))
        words[between] = worth(tables[first.model.name], [words[net] for net in read_nets(first)], every)
        if worth(tables[second.model.name], [words[net] for net in read_nets(second)], every) in had[len(leaves)]:
            yield f"a cell stands for {first.name} and {second.name}"


# ---- what the netlist shows, of the machine and of its graph


def shown_words(m, n, given, every):
    """The word of each net."""
    found, tables = {bit: given[bit] for bit, way in m.ports.items() if way == IN}, {}
    found.update((shown_net(i), given[bit]) for i, bit in zip(n.instances, sorted(m.registers)))
    for i in n.instances[len(m.registers) :]:
        if i.model.name not in tables:
            tables[i.model.name] = i.model.table()
        found[shown_net(i)] = worth(tables[i.model.name], [found[net] for net in read_nets(i)], every)
    return found


def graph_faults(m, n):
    """Each gate shows a node of the graph, and no two the same one; outputs show and registers load what they do in the graph."""
    graph, bits = Graph(m), sorted([bit for bit, way in m.ports.items() if way == IN] + list(m.registers))
    given, every = vectors(bits)
    of_node, of_net = graph.values(given, every), shown_words(m, n, given, every)
    left = Counter(of_node[number] for number in graph.live())
    gates = n.instances[len(m.registers) :]
    for instance in gates:
        left[of_net[shown_net(instance)]] -= 1
        if left[of_net[shown_net(instance)]] < 0:
            yield f"{instance.name} shows no node, or one that another gate shows"
    inputs = sum(len(i.model.inputs) for i in gates)
    if inputs > graph.most_inputs():
        yield f"{inputs} inputs of gates, and not {graph.most_inputs()} at most"
    for bit, number in graph.outputs.items():
        if of_net.get(bit) != of_node[number]:
            yield f"the output {bit}"
    for i, (bit, number) in zip(n.instances, graph.loads.items()):
        if of_net[i.nets[i.model.data()]] != of_node[number]:
            yield f"what {i.name} loads"


def build_faults(m, models, n):
    """What isn't as it has to be in the build of a mapped netlist, whichever graph it was mapped from."""
    faults = list(order_faults(m, models, n))
    yield from faults
    if not faults:
        yield from lean_faults(m, n)
        yield from tight_faults(m, models, n)


def mapping_faults(m, models, n):
    """What isn't as it has to be in a netlist that was mapped from a machine: without buffers, and with any drives of gates."""
    faults = list(build_faults(m, models, n))
    yield from faults
    if not faults:
        yield from graph_faults(m, n)
