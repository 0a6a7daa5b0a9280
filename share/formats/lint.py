"""What a text is accepted with and its writer seldom means: states that nothing leads to or that no branch lists, names that nothing reads."""

import itertools

from . import files
from .state_walk import cycle
from .vbe_oracle import reads
from .vhdl_reader import spelled

MOST_INPUTS = 10


def listed_states(body):
    """The states that branches of cases list."""
    for s in body:
        if s[0] == "case":
            for states, part in s[3]:
                yield from (name for name, _ in states)
                yield from listed_states(part)
            if s[4] is not None:
                yield from listed_states(s[4])
        elif s[0] == "if":
            for _, _, part in s[1]:
                yield from listed_states(part)
            yield from listed_states(s[2] or [])


def has_others(body):
    return any(s[0] == "case" and s[4] is not None for s in body) or any(
        has_others(part) for s in body if s[0] == "if" for part in [*(part for _, _, part in s[1]), s[2] or []]
    )


def of_states(path):
    """Of a state machine: states that no branch lists, and states that none other leads to."""
    checks = files.states(path)
    machine = checks.machine()
    if not has_others(checks.reader.step):
        lacking = [name for name in machine.states if name not in set(listed_states(checks.reader.step))]
        yield from (f"{path}: no branch lists the state {name}; there the outputs and the next state are those in front of the case" for name in lacking)
    if len(machine.inputs) > MOST_INPUTS:
        yield f"{path}: more than {MOST_INPUTS} inputs: which states are reached wasn't looked at"
        return
    vectors = [dict(zip(machine.inputs, bits)) for bits in itertools.product((0, 1), repeat=len(machine.inputs))]
    for number, name in enumerate(machine.states):
        others = [k for k in range(len(machine.states)) if k != number]
        if others and not any(cycle(machine, vector, k)[1] == number for k in others for vector in vectors):
            yield f"{path}: no other state leads to {name}"


def of_source(path):
    """Of a data-flow source: inputs and inner signals that nothing reads."""
    machine = files.source(path)
    read = set().union(*(reads(formula) for _, formula in machine.equations), *(reads(f) for pair in machine.registers.values() for f in pair))
    for bit, way in sorted(machine.ports.items()):
        if way == "in" and bit not in read and bit != (machine.clock, -1):
            yield f"{path}: nothing reads the input {spelled(bit)}"
    for bit, _ in sorted(machine.equations):
        if bit not in machine.ports and bit not in read:
            yield f"{path}: nothing reads the signal {spelled(bit)}"


def remarks(path):
    if path.endswith(".fsm"):
        return list(of_states(path))
    if path.endswith(".vbe"):
        return list(of_source(path))
    raise files.Trouble(f"{path}: remarks are made on sources, .vbe and .fsm")
