"""The equations of a state machine by codes of its states, as docs/formats/state-machines.md has them: what each register and output shows, from any
contents of the registers, those that are no code among them.
"""

from share.formats.vbe_oracle import Machine


def first_free(stem, taken):
    return next(text for text in [stem, *(f"{stem}{k}" for k in range(len(taken) + 1))] if text not in taken)


def free(stem, taken):
    k = 0
    while True:
        if f"{stem}{k}" not in taken:
            yield f"{stem}{k}"
        k += 1


def joined(operator, parts, empty):
    return ("join", operator, parts) if len(parts) > 1 else parts[0] if parts else empty


class Equations:
    """Inner signals in their order: each state's, and each condition's, part's and branch's in the order of the text."""

    def __init__(self, machine, codes, one_hot):
        self.codes = codes
        taken = {name for name, _ in machine.ports}
        self.register = first_free("st", taken)
        self.fresh = free("n", taken)
        self.inner = []
        held = [("bit", (self.register, k)) for k in range(len(codes[0]))]
        for state, code in enumerate(codes):
            literals = [f if bit else ("not", f) for bit, f in zip(code, held)]
            self.signal(held[state] if one_hot else joined("and", literals, 1))
        self.at = [("bit", bit) for bit, _ in self.inner]
        self.outputs = {bit: 0 for bit in machine.outputs}
        self.next = [0] * len(held)
        self.take(machine.body, None)

    def signal(self, formula):
        bit = (next(self.fresh), -1)
        self.inner.append((bit, formula))
        return ("bit", bit)

    def along(self, path, formula):
        return formula if path is None else ("join", "and", [path, formula])

    def under(self, path, formula, before):
        return formula if path is None else ("choice", [(path, formula)], before)

    def take(self, body, path):
        for s in body:
            if s[0] == "out":
                self.outputs[s[1]] = self.under(path, s[2], self.outputs[s[1]])
            elif s[0] == "next":
                self.next = [self.under(path, bit, before) for bit, before in zip(self.codes[s[1]], self.next)]
            elif s[0] == "if":
                self.take_if(s[1], s[2], path)
            else:
                self.take_case(s[1], s[2], path)

    def take_if(self, parts, last, path):
        for k, (condition, part) in enumerate(parts):
            asked = self.signal(condition)
            self.take(part, self.signal(self.along(path, asked)))
            if k + 1 < len(parts) or last is not None:
                path = self.signal(self.along(path, ("not", asked)))
        if last is not None:
            self.take(last, path)

    def take_case(self, branches, others, path):
        left = list(range(len(self.codes)))
        for states, part in branches:
            self.take_branch(states, part, path)
            left = [s for s in left if s not in states]
        if others is not None:
            self.take_branch(left, others, path)

    def take_branch(self, states, part, path):
        self.take(part, self.signal(self.along(path, joined("or", [self.at[s] for s in states], 0))))


def machine_of(machine, codes, one_hot):
    """The machine, as one that is read from a data-flow text."""
    made = Equations(machine, codes, one_hot)
    equations = [*made.inner, *((bit, made.outputs[bit]) for bit in machine.outputs)]
    registers = {(made.register, k): (formula, 1) for k, formula in enumerate(made.next)}
    return Machine(machine.name, machine.ports, machine.clock, equations, registers)
