"""Whether transistors do what a cell's behaviour says: every input from unknown contents, then random inputs one after the other."""

import itertools
import random

from .switch_level import UNKNOWN, Circuit

RANDOM_INPUTS, RANDOM_EVENTS = 50, 400


def wrong(behaviour, transistors):
    """(how many outputs were compared, how many were wrong) of a gate or a plain flip-flop, by its behaviour of share/formats/cellcheck.py."""
    if behaviour.machine.registers:
        return wrong_of_flip_flop(behaviour, transistors)
    return wrong_of_gate(behaviour, transistors)


def wrong_of_gate(behaviour, transistors):
    names, lot = sorted(bit[0] for bit in behaviour.inputs()), random.Random(1)
    all_inputs = [dict(zip(names, bits)) for bits in itertools.product((0, 1), repeat=len(names))]
    compared = [(inputs, Circuit(transistors)) for inputs in all_inputs]
    kept = Circuit(transistors)
    compared += [(lot.choice(all_inputs), kept) for _ in range(RANDOM_INPUTS)]
    return len(compared), sum(output_of(behaviour, circuit.settle(inputs)) != meant(behaviour, inputs) for inputs, circuit in compared)


def wrong_of_flip_flop(behaviour, transistors):
    clock = behaviour.machine.clock
    [data] = [bit[0] for bit in behaviour.inputs() if bit[0] != clock]
    circuit, lot, held, found, compared = Circuit(transistors), random.Random(1), UNKNOWN, 0, 0
    circuit.settle({clock: 0, data: 0})
    for _ in range(RANDOM_EVENTS):
        moved = lot.choice((clock, data))
        value = 1 - circuit.given[moved]
        if moved == clock and value == 1:
            held = circuit.given[data]
        seen = output_of(behaviour, circuit.settle({moved: value}))
        compared += held != UNKNOWN
        found += held != UNKNOWN and seen != held
    return compared, found


def output_of(behaviour, values):
    [(name, _)] = behaviour.outputs()
    return values.get(name, UNKNOWN)


def meant(behaviour, inputs):
    settled = behaviour.machine.settle({(name, -1): value for name, value in inputs.items()}, {})
    return settled[behaviour.outputs()[0]]
