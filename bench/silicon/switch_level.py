"""Transistors as switches, after Bryant (A switch-level model and simulator for MOS digital systems, 1984), with values 0, 1 and X.

A net that no conducting transistor joins to a supply or an input keeps its charge.
"""

from typing import NamedTuple

STEPS = 500
UNKNOWN = "X"


class Transistor(NamedTuple):
    """`kind` is n or p."""

    kind: str
    gate: str
    source: str
    drain: str


class Unsettled(Exception):
    """The nets found no rest."""


class Circuit:
    """Transistors between nets, all of which are unknown at first. `given` are the supplies and inputs with their values."""

    def __init__(self, transistors):
        self.transistors = transistors
        self.gates = {t.gate for t in transistors}
        self.given = {"vdd": 1, "vss": 0}
        self.values = {net: UNKNOWN for t in transistors for net in t[1:]} | self.given

    def settle(self, inputs):
        """The values of all nets after these inputs are given."""
        self.given.update(inputs)
        self.values.update(self.given)
        for _ in range(STEPS):
            following = self.step()
            if following == self.values:
                return self.values
            self.values = following
        raise Unsettled

    def release(self, nets):
        for net in nets:
            del self.given[net]

    def step(self):
        surely, maybe = neighbours(self.conducting(False)), neighbours(self.conducting(True))
        sources = {value: [net for net, given in self.given.items() if given == value] for value in (0, 1)}
        sure = {value: self.reached(surely, sources[value]) for value in (0, 1)}
        possible = {value: self.reached(maybe, sources[value]) for value in (0, 1)}
        return {net: self.following(net, sure, possible, maybe) for net in self.values}

    def conducting(self, even_unknown):
        """Pairs of nets that conducting transistors join; those with an unknown gate among them or not."""
        for kind, gate, source, drain in self.transistors:
            value = self.values[gate]
            if (value == UNKNOWN and even_unknown) or (value != UNKNOWN and (value == 1) == (kind == "n")):
                yield source, drain

    def reached(self, joined, sources):
        """The sources, and what is joined to them without a given net between."""
        found, left = set(sources), list(sources)
        while left:
            for net in joined.get(left.pop(), ()):
                if net not in found and net not in self.given:
                    found.add(net)
                    left.append(net)
        return found

    def following(self, net, sure, possible, maybe):
        if net in self.given:
            return self.given[net]
        for value in (0, 1):
            if net in sure[value] and net not in possible[1 - value]:
                return value
        held = self.values[net]
        if net in possible[0] or net in possible[1]:
            is_only_held = held != UNKNOWN and not any(net in sure[value] for value in (0, 1)) and net not in possible[1 - held]
            return held if is_only_held else UNKNOWN
        return self.charge(net, maybe)

    def charge(self, net, maybe):
        """What the nets hold that are joined: that of the gates among them, which are the larger ones."""
        together = self.reached(maybe, [net])
        values = {self.values[other] for other in (together & self.gates or together)}
        return values.pop() if len(values) == 1 else UNKNOWN


def neighbours(pairs):
    made = {}
    for one, other in pairs:
        made.setdefault(one, []).append(other)
        made.setdefault(other, []).append(one)
    return made
