"""Machines and netlists as BLIF, which yosys and abc read."""

from .models import IN
from .vhdl_reader import SUPPLIES

COVERS = {
    "and": "11 1", "or": "1- 1\n-1 1", "nand": "0- 1\n-0 1", "nor": "00 1", "xor": "10 1\n01 1", "xnor": "00 1\n11 1",
}
NOT, CHOICE, SAME = "0 1", "11- 1\n0-1 1", "1 1"


def named(bit):
    return bit[0] if bit[1] < 0 else f"{bit[0]}[{bit[1]}]"


class Writer:
    def __init__(self):
        self.lines, self.count = [], 0

    def table(self, cover, *inputs, to=None):
        """A table of its own; the name of what it gives."""
        if to is None:
            self.count += 1
            to = f"n${self.count}"
        self.lines.append(" ".join([".names", *inputs, to]) + (f"\n{cover}" if cover else ""))
        return to

    def value(self, formula):
        if isinstance(formula, int):
            return self.table("1" if formula else "")
        if formula[0] == "bit":
            return named(formula[1])
        if formula[0] == "not":
            return self.table(NOT, self.value(formula[1]))
        if formula[0] == "join":
            first, *others = map(self.value, formula[2])
            for other in others:
                first = self.table(COVERS[formula[1]], first, other)
            return first
        last = self.value(formula[2])
        for condition, value in reversed(formula[1]):
            last = self.table(CHOICE, self.value(condition), self.value(value), last)
        return last

    def machine(self, m):
        ways = {way: " ".join(named(bit) for bit, found in m.ports.items() if found == way) for way in ("in", "out")}
        self.lines += [f".model {m.name}", f".inputs {ways['in']}", f".outputs {ways['out']}"]
        for bit, formula in m.equations:
            self.table(SAME, self.value(formula), to=named(bit))
        for bit, (then, enable) in m.registers.items():
            loaded = self.value(then) if enable == 1 else self.table(CHOICE, self.value(enable), self.value(then), named(bit))
            self.lines.append(f".latch {loaded} {named(bit)} re {m.clock} 0")
        return "\n".join([*self.lines, ".end", ""])


def of_netlist(n, names):
    """A netlist as a model with a subcircuit for each instance, and behind it a model for each cell. `names` gives each net its name."""
    ways = {way: " ".join(named(bit) for bit, found in n.ports.items() if found == way) for way in (IN, "out")}
    lines = [f".model {n.name}", f".inputs {ways[IN]}", f".outputs {ways['out']}"]
    lines += [f".names {supply}" + ("\n1" if value else "") for supply, value in zip(SUPPLIES, (1, 0)) if uses(n, supply)]
    for i in n.instances:
        pins = " ".join(f"{named(pin)}={names[net]}" for pin, net in i.nets.items() if pin[0] not in SUPPLIES)
        lines.append(f".subckt {i.model.name} {pins}")
    cells = {i.model.name: i.model.machine for i in n.instances}
    return "\n".join([*lines, ".end", "", *(Writer().machine(m) for m in cells.values())])


def uses(n, supply):
    """Whether a pin that is no supply goes to this supply."""
    return any(net[0] == supply and pin[0] not in SUPPLIES for i in n.instances for pin, net in i.nets.items())
