"""A closer look at what two files don't agree on: a pattern's value, a pin of two netlists, an input on which two functions differ."""

import itertools
import random

from . import files
from .pat_oracle import bits_of
from .vhdl_reader import spelled

MOST_BITS, VECTORS, SEED = 12, 20_000, 1


# ---- asimut


def expected(columns, pattern, name):
    """The value that a pattern expects of an output bit, or None."""
    for column, (_, digits) in zip(columns, pattern.values):
        if column.way == "out" and digits is not None:
            found = dict(zip(map(spelled, column.bits()), bits_of(column, digits)[0]))
            if name in found:
                return found[name]
    return None


def pattern_of(patterns, label):
    return next((p for k, p in enumerate(patterns) if p.label == label or p.label is None and str(k) == label), None)


def of_pattern(path, label, name):
    """Where the pattern stands, and what it expects."""
    columns, patterns = files.patterns(path)
    pattern = pattern_of(patterns, label)
    value = pattern and expected(columns, pattern, name)
    if value is None:
        return
    yield f"{path}, line {pattern.line}, expects {value} of {name}, and it is {1 - value}."
    yield f"To see all outputs write `?*` in place of each value behind a `?`, run it again, and give what it prints to `share/waves`."


# ---- lvx


def nets_of(netlist):
    """For each terminal, as (owner, pin), the terminals of its net; a port has no owner."""
    found = {}
    for bit in netlist.all_ports:
        found.setdefault(bit, set()).add(("", spelled(bit)))
    for instance in netlist.instances:
        for pin, net in instance.nets.items():
            found.setdefault(net, set()).add((instance.name, spelled(pin)))
    return {terminal: terminals for terminals in found.values() for terminal in terminals}


def terminal_text(terminal):
    return ".".join(part for part in terminal if part)


def of_netlists(first, second, library, name):
    """Why the port or instance of this name isn't one in both netlists."""
    models = files.library(library)
    a, b = files.netlist(first, models), files.netlist(second, models)
    names = [{spelled(bit) for bit in n.all_ports} | set(n.owners) for n in (a, b)]
    if (name in names[0]) != (name in names[1]):
        yield f"{name} is in {first if name in names[0] else second} alone."
        return
    if name in a.owners and name in b.owners and a.owners[name].model is not b.owners[name].model:
        yield f"{name} is of two cells."
    nets = nets_of(a), nets_of(b)
    for terminal in sorted(t for t in nets[0] if name == (t[0] or t[1])):
        here, there = nets[0][terminal], nets[1].get(terminal, set())
        if here != there:
            yield f"The net of {terminal_text(terminal)} also has {shown(here - there)} in {first}, and {shown(there - here)} in {second}."
            return


def shown(terminals):
    return ", ".join(sorted(map(terminal_text, terminals))[:4]) or "nothing else"


# ---- proof


def vectors(names):
    """All values of a few bits; of more, values at random."""
    if len(names) <= MOST_BITS:
        yield from (dict(zip(names, bits)) for bits in itertools.product((0, 1), repeat=len(names)))
        return
    words = random.Random(SEED)
    for _ in range(VECTORS // max(1, len(names) // MOST_BITS)):
        share = words.choice((0.5, 0.1, 0.9))
        yield {name: int(words.random() < share) for name in names}


def loaded(machine, values, bit):
    """The value of an output, or what a register loads."""
    env = machine.settle(values, {})
    return machine.load(env)[bit] if bit in machine.registers else env[bit]


def of_sources(first, second, name):
    """Values of inputs and registers under which the two sources differ in this output or register."""
    a, b = files.source(first), files.source(second)
    held = sorted(a.registers)
    inputs = sorted(bit for bit, way in a.ports.items() if way == "in" and bit != (a.clock, -1))
    bit = next((bit for bit in [*a.ports, *a.registers] if spelled(bit) == name), None)
    clock = {(a.clock, -1): 0} if a.clock else {}
    for values in vectors(inputs + held):
        found = [loaded(machine, {**values, **clock}, bit) for machine in (a, b)]
        if found[0] != found[1]:
            said = ", ".join(f"{spelled(b)} {v}" for b, v in values.items()) or "no inputs at all"
            yield f"With {said}, {name} is {found[0]} by {first} and {found[1]} by {second}."
            return
    yield "They differ so seldom that no vector was found."
