"""Nets with many sinks put behind buffers, for the second readers, written from docs/formats/netlists.md.

`limited(n, models, fanout)` gives the instances that a netlist of usable cells then has, each with its cell and the nets of its pins, or
None where the library has neither a buffer nor an inverter.
"""

import itertools

from share.formats.models import IN
from share.formats.vhdl_reader import SUPPLIES


class Put:
    """An instance whose nets change."""

    def __init__(self, name, model, nets):
        self.name, self.model, self.nets = name, model, dict(nets)


def is_sink(item, pin):
    """Input pins are sinks of their nets, but for clocks, supplies, and those that are tied to a supply."""
    return item.model.pins[pin] == IN and pin != item.model.clock and pin[0] not in SUPPLIES and item.nets[pin][0] not in SUPPLIES


def sinks(items, net):
    """By instances in their order and then by names."""
    return [(item, pin) for item in items for pin in sorted(item.nets) if item.nets[pin] == net and is_sink(item, pin)]


def repeater(models):
    """The cell that a group is put behind, and how many of them in a row; None where there is none."""
    gates = [model for model in models.values() if model.is_usable and len(model.inputs) == 1 and model.clock is None]
    buffer = next((model for model in gates if model.table() == (0, 1)), None)
    inverter = next((model for model in gates if model.table() == (1, 0)), None)
    return (buffer, 1) if buffer else (inverter, 2) if inverter else None


def nets_in_order(n):
    """By their least terminals: ports by name, then instances in their order with pins by name."""
    found = dict.fromkeys(sorted(n.all_ports))
    for i in n.instances:
        found.update(dict.fromkeys(i.nets[pin] for pin in sorted(i.nets)))
    return list(found)


def counts(items):
    """How many sinks each net has."""
    found = {}
    for item in items:
        for pin, net in item.nets.items():
            if is_sink(item, pin):
                found[net] = found.get(net, 0) + 1
    return found


def limited(n, models, fanout):
    items = [Put(i.name, i.model, i.nets) for i in n.instances]
    crowded = {net for net, many in counts(items).items() if many > fanout}
    if not crowded:
        return items
    found = repeater(models)
    if found is None:
        return None
    names = (name for k in itertools.count() if (name := f"b{k}") not in n.owners)
    for net in nets_in_order(n):
        if net in crowded:
            items += behind_buffers(sinks(items, net), net, fanout, found, names)
    return items


def behind_buffers(left, net, fanout, found, names):
    """The gates that are put in for the sinks of one net."""
    model, many = found
    put = []
    while len(left) > fanout:
        groups = [left[at : at + fanout] for at in range(0, len(left), fanout)]
        left = []
        for group in groups:
            row = [gate(next(names), model) for _ in range(many)]
            row[0].nets[model.inputs[0]] = net
            for one, other in itertools.pairwise(row):
                other.nets[model.inputs[0]] = one.nets[model.outputs[0]]
            for item, pin in group:
                item.nets[pin] = row[-1].nets[model.outputs[0]]
            left.append((row[0], model.inputs[0]))
            put += row
    return put


def gate(name, model):
    """With a net of its own behind it."""
    return Put(name, model, {("vdd", -1): ("vdd", -1), ("vss", -1): ("vss", -1), model.outputs[0]: ("net of", name)})
