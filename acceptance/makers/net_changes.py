"""Netlists with one thing changed, as a hand or another program changes them. Each change gives a netlist for vst_writer.py, or None where
the netlist has nothing to change so; what comes out need not pass the checks of a netlist.
"""

import itertools
from typing import NamedTuple

from share.formats.models import OUT
from share.formats.vhdl_reader import SUPPLIES
from share.formats.vst_writer import laid_out


class Changed(NamedTuple):
    name: str
    all_ports: dict
    instances: list


def with_instances(n, instances):
    return Changed(n.name, n.all_ports, instances)


def put(n, changed):
    """The netlist with these instances in the places of those of their names."""
    of_name = {i.name: i for i in changed}
    return with_instances(n, [of_name.get(i.name, i) for i in n.instances])


def some(choose, n):
    return choose.choice(n.instances) if n.instances else None


def free_name(n, stem):
    taken = {i.name for i in n.instances} | {text for text, _ in n.all_ports}
    return next(name for k in itertools.count() if (name := f"{stem}{k}") not in taken)


def places(n, way=None):
    """The pins that are no supplies, as (instance, pin)."""
    return [(i, pin) for i in n.instances for pin in i.nets if pin[0] not in SUPPLIES and way in (None, i.model.pins[pin])]


def moved(n, pairs):
    """The netlist with each of these (instance's name, pin) on the net beside it."""
    nets = {}
    for (name, pin), net in pairs:
        nets.setdefault(name, {})[pin] = net
    return put(n, [i._replace(nets={**i.nets, **nets[i.name]}) for i in n.instances if i.name in nets])


def respelled(choose, n):
    """Another text of the same netlist: its instances in another order, its signals with other names."""
    instances = list(n.instances)
    choose.shuffle(instances)
    return laid_out(with_instances(n, instances)).encode()


def renamed(choose, n, _):
    one = some(choose, n)
    if one is None:
        return None
    name = free_name(n, choose.choice(["a", "zz"]))
    return with_instances(n, [i._replace(name=name) if i is one else i for i in n.instances])


def names_exchanged(choose, n, _):
    if len(n.instances) < 2:
        return None
    a, b = choose.sample(n.instances, 2)
    names = {a.name: b.name, b.name: a.name}
    return with_instances(n, [i._replace(name=names.get(i.name, i.name)) for i in n.instances])


def left_out(choose, n, _):
    one = some(choose, n)
    return one and with_instances(n, [i for i in n.instances if i is not one])


def doubled(choose, n, _):
    """An instance a second time under another name, its outputs on nets of their own."""
    one = some(choose, n)
    if one is None:
        return None
    nets = {pin: ("", ("new", pin)) if one.model.pins[pin] == OUT else net for pin, net in one.nets.items()}
    return with_instances(n, [*n.instances, one._replace(name=free_name(n, "d"), nets=nets)])


def other_model(choose, n, models):
    """An instance of another cell with the same pins."""
    found = [(i, m) for i in n.instances for m in models.values() if m is not i.model and m.pins == i.model.pins and m.clock == i.model.clock]
    if not found:
        return None
    one, model = choose.choice(found)
    return put(n, [one._replace(model=model)])


def merged(choose, n, _):
    """All pins of one class on another."""
    nets = sorted({i.nets[pin] for i, pin in places(n)}, key=repr)
    if len(nets) < 2:
        return None
    one, other = choose.sample(nets, 2)
    return moved(n, [((i.name, pin), other) for i, pin in places(n) if i.nets[pin] == one])


def split(choose, n, _):
    """Some pins of a class on a new one."""
    found = places(n)
    if not found:
        return None
    i, pin = choose.choice(found)
    members = [(one.name, other) for one, other in found if one.nets[other] == i.nets[pin]]
    return moved(n, [(member, ("", "split")) for member in choose.sample(members, choose.randrange(1, len(members) + 1))])


def terminal_moved(choose, n, _):
    found = places(n)
    if not found:
        return None
    i, pin = choose.choice(found)
    return moved(n, [((i.name, pin), choose.choice([one.nets[other] for one, other in found] + list(n.ports)))])


def input_moved(choose, n, _):
    """An input on a net that something drives: mostly a netlist again."""
    found = [(i, pin) for i, pin in places(n) if i.model.pins[pin] != OUT and pin != i.model.clock]
    driven = [i.nets[pin] for i, pin in places(n, OUT)]
    driven += [bit for bit, way in n.ports.items() if way != OUT and bit != n.clock]
    if not found or not driven:
        return None
    i, pin = choose.choice(found)
    return moved(n, [((i.name, pin), choose.choice(driven))])


def exchanged(choose, n, way):
    found = [(i, pin) for i, pin in places(n, way) if pin != i.model.clock]
    if len(found) < 2:
        return None
    (a, one), (b, other) = choose.sample(found, 2)
    return moved(n, [((a.name, one), b.nets[other]), ((b.name, other), a.nets[one])])


def port_added(choose, n, _):
    return Changed(n.name, {**n.all_ports, (free_name(n, choose.choice(["a", "p"])), -1): "in"}, n.instances)


def port_renamed(choose, n, _):
    """An input bit by itself under a new name, with all that is on it."""
    scalars = [bit for bit in n.ports if bit[1] < 0]
    if not scalars:
        return None
    old, new = choose.choice(scalars), (free_name(n, choose.choice(["a", "p"])), -1)
    ports = {new if bit == old else bit: way for bit, way in n.all_ports.items()}
    return Changed(n.name, ports, [i._replace(nets={pin: new if net == old else net for pin, net in i.nets.items()}) for i in n.instances])


def entity_renamed(_, n, __):
    """The name of the netlist isn't compared."""
    return Changed("other", n.all_ports, n.instances)


CHANGES = {
    "an instance renamed": renamed, "two instances' names exchanged": names_exchanged, "an instance left out": left_out,
    "an instance doubled": doubled, "an instance of another cell": other_model, "two classes merged": merged, "a class split": split,
    "a terminal moved": terminal_moved, "an input moved": input_moved,
    "two inputs exchanged": lambda choose, n, _: exchanged(choose, n, "in"),
    "two outputs exchanged": lambda choose, n, _: exchanged(choose, n, OUT),
    "a port added": port_added, "a port renamed": port_renamed, "the entity renamed": entity_renamed,
}
