"""A second walker through the statements of a state machine, written from docs/formats/state-machines.md alone.

A body is a list of statements: ("out", bit, formula), ("next", state), ("if", [(condition, body)..], last body or None) and
("case", [(states, body)..], body of the others or None). States are numbers, formulas those of vbe_oracle.py.
"""

from .vbe_oracle import values

UNKNOWN = None
NEXT = "next state"


class StateMachine:
    """ports: bit to mode, without the supplies; the states' names in the order of their declaration."""

    def __init__(self, name, ports, clock, states, body):
        self.name, self.ports, self.clock, self.states, self.body = name, ports, clock, states, body
        self.inputs = sorted(bit for bit, way in ports.items() if way == "in" and bit != (clock, -1))
        self.outputs = sorted(bit for bit, way in ports.items() if way == "out")


def branch(statement, state):
    """What a case does in a state: the branch that lists it, or that of the others."""
    return next((part for states, part in statement[1] if state in states), statement[2]) or []


def bodies(statement):
    """What stands in an if or a case."""
    if statement[0] in ("if", "case"):
        yield from (part for _, part in statement[1])
        yield statement[2] or []


def targets(body):
    """Everything that some statement assigns."""
    for statement in body:
        if statement[0] == "out":
            yield statement[1]
        elif statement[0] == "next":
            yield NEXT
        for part in bodies(statement):
            yield from targets(part)


def walk(body, env, state, known):
    """Adds to `known` what is assigned under these inputs in this state, or in none."""
    for statement in body:
        if statement[0] == "out":
            known[statement[1]] = values(statement[2], env)
        elif statement[0] == "next":
            known[NEXT] = statement[1]
        elif statement[0] == "if":
            taken = next((part for condition, part in statement[1] if values(condition, env)), statement[2])
            walk(taken or [], env, state, known)
        elif state is None:
            known.update((target, UNKNOWN) for target in targets([statement]))
        else:
            walk(branch(statement, state), env, state, known)
    return known


def gives(body, other):
    """Whether some statement assigns this state to the next state."""
    return any(s[0] == "next" and s[1] == other or any(gives(part, other) for part in bodies(s)) for s in body)


def leads(body, state, other):
    """Whether the branch of a state assigns the other one to the next state."""
    for s in body:
        if s[0] == "case" and gives(branch(s, state), other):
            return True
        if s[0] == "if" and any(leads(part, state, other) for part in bodies(s)):
            return True
    return False


def cycle(machine, inputs, state):
    """The outputs and the next state, from a state under a vector."""
    known = walk(machine.body, inputs, state, {})
    return {bit: known[bit] for bit in machine.outputs}, known[NEXT]


def reset_to(machine, inputs):
    """The state to which a vector leads whatever the state is, or None."""
    return walk(machine.body, inputs, None, {}).get(NEXT)
