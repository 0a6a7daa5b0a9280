"""A second reader of structural texts over a library, and a runner of the netlists, written from docs/formats/netlists.md.

`netlist(text, models)` gives the Netlist that a text is, over the models of a library (models.py), or raises Refused with
what is wrong with it first. pat_oracle.py runs patterns on it.
"""

from typing import NamedTuple

from .models import IN, OUT, Model
from .vbe_oracle import PORTS, Ring
from .vhdl_reader import SUPPLIES, Refused, bits_of, fault, lex, limit, numbers, ordered, spelled
from .vst_reader import StructureReader

FILE, TERMINALS = 268435456, 2**32


class Instance(NamedTuple):
    """A cell with the net, which is a bit of a port or signal, of each of its pins."""

    name: str
    model: Model
    nets: dict


# ---- what a text has to name


def has_pins(component, model):
    """Whether the ports are exactly the pins of the cell, each name once."""
    names = [name for name, _, _ in component.ports]
    return len(set(names)) == len(names) and dict(component.bits()) == model.pins


def pin_bits(component, association):
    """The bits of a pin from the left, or None where it isn't there or lacks the bit."""
    bounds, bit = component.bounds(), association.bit
    if association.pin not in bounds:
        return None
    of_pin = bounds[association.pin]
    if bit is None:
        return bits_of(association.pin, of_pin)
    return [(association.pin, bit)] if of_pin is not None and bit in numbers(of_pin) else None


def net_bits(symbols, association):
    """The bits of a net from the left, or None where it isn't declared or lacks one of them."""
    if association.net not in symbols:
        return None
    bounds, selection = symbols[association.net].bounds, association.selection
    if selection is None:
        return symbols[association.net].bits()
    if bounds is None:
        return None
    if isinstance(selection, int):
        return [(association.net, selection)] if selection in numbers(bounds) else None
    left, _, right = selection
    is_inside = ordered(selection) and left in numbers(bounds) and right in numbers(bounds)
    return bits_of(association.net, selection) if is_inside else None


class Linker:
    """Gives the pins of instances their nets; each breach is a bad map at its line."""

    def __init__(self, reader, structure, models):
        self.structure, self.models = structure, models
        self.symbols = {s.name: s for s in reader.symbols}
        self.components = {c.name: c for c in structure.components}

    def supplied(self, pin, net):
        """A supply pin goes to the port of its name."""
        return pin not in SUPPLIES or (pin == net and self.symbols[net].role == IN)

    def link(self, component, association, nets):
        pins = pin_bits(component, association)
        if pins is None or any(pin in nets for pin in pins):
            raise fault(association.pin_line, "bad map")
        bits = net_bits(self.symbols, association)
        if bits is None or len(bits) != len(pins) or not self.supplied(association.pin, association.net):
            raise fault(association.net_line, "bad map")
        nets.update(zip(pins, bits))

    def instance(self, item):
        component = self.components.get(item.component)
        if component is None:
            raise fault(item.component_line, "bad map")
        nets = {}
        for association in item.associations:
            self.link(component, association, nets)
        model = self.models[component.name]
        if len(nets) < len(model.pins):
            raise fault(item.end_line, "bad map")
        return Instance(item.name, model, nets)

    def instances(self):
        for component in self.structure.components:
            if component.name not in self.models:
                raise fault(component.line, "unknown cell", component.name)
        for component in self.structure.components:
            if not has_pins(component, self.models[component.name]):
                raise fault(component.line, "bad map")
        return [self.instance(item) for item in self.structure.instances]


# ---- the check of a netlist


class Tally:
    """The terminals of a class by what they do, the names of the least one first."""

    def __init__(self, names):
        self.names = names
        self.ports, self.pins, self.clocks = {IN: 0, OUT: 0}, {IN: 0, OUT: 0}, 0

    def inputs(self):
        return self.pins[IN] + self.clocks

    def drivers(self):
        return self.ports[IN] + self.pins[OUT]

    def is_unconnected(self):
        return self.inputs() == 1 and self.drivers() + self.ports[OUT] == 0

    def is_undriven(self):
        return not self.is_unconnected() and self.inputs() + self.ports[OUT] > 0 and self.drivers() == 0

    def misuses_clock(self, clocks):
        return self.clocks > 0 and (self.ports[IN] == 0 or self.clocks < clocks or self.ports[OUT] + self.pins[IN] > 0)


class NetRing(Ring):
    """Outputs of instances that depend on each other in a ring: which ring is named is open."""

    def __init__(self, links):
        Refused.__init__(self, "a ring")
        self.links = links
        self.outputs = {}
        for owner, pin in links:
            self.outputs.setdefault(owner, []).append((owner, pin))

    def allows(self, line, names):
        """Whether these are the instances of a ring of different outputs, from the least name on."""
        if line != 1 or not names or min(names) != names[0] or any(name not in self.outputs for name in names):
            return False
        return any(self.is_ring(first, names) for first in self.outputs[names[0]])

    def is_ring(self, first, names):
        """Whether outputs of these instances, from this one on, lead to each other and back; no output stands twice."""
        path, met, waiting = [], set(), [(0, first)]
        while waiting:
            depth, end = waiting.pop()
            while len(path) > depth:
                met.remove(path.pop())
            if end in met:
                continue
            path.append(end)
            met.add(end)
            if len(path) < len(names):
                waiting += [(len(path), other) for other in self.outputs[names[len(path)]] if other in self.links[end]]
            elif first in self.links[end]:
                return True
        return False


class Netlist:
    """ports: bit to direction, with vdd and vss; instances in file order; order: the outputs, each behind those on which it
    depends at once. It has what pat_oracle.py asks of a machine: ports without the supplies, registers, clock."""

    def __init__(self, name, all_ports, instances):
        self.name, self.all_ports, self.instances = name, all_ports, instances
        self.ports = {bit: way for bit, way in all_ports.items() if bit[0] not in SUPPLIES}
        self.owners = {instance.name: instance for instance in instances}
        self.check_size()
        self.check_classes()
        self.order = self.outputs_in_order()
        if len(self.ports) > PORTS:
            raise limit("ports", len(self.ports))
        self.registers = {(i.name, bit): None for i in instances for bit in i.model.registers}
        clocks = [i.nets[i.model.clock] for i in instances if i.model.clock]
        self.clock = clocks[0] if clocks else None

    def check_size(self):
        terminals = len(self.all_ports) + sum(len(i.nets) for i in self.instances)
        if terminals >= TERMINALS:
            raise limit("bits", terminals)

    def tallies(self):
        """Those of all classes, in the order of their least terminals."""
        found = {}
        for bit in sorted(self.all_ports):
            found.setdefault(bit, Tally([spelled(bit)])).ports[self.all_ports[bit]] += 1
        for instance in self.instances:
            for pin in sorted(instance.nets):
                tally = found.setdefault(instance.nets[pin], Tally([instance.name, spelled(pin)]))
                if pin == instance.model.clock:
                    tally.clocks += 1
                else:
                    tally.pins[instance.model.pins[pin]] += 1
        return list(found.values())

    def check_classes(self):
        tallies = self.tallies()
        clocks = sum(tally.clocks for tally in tallies)
        faults = {
            "unconnected": Tally.is_unconnected, "no driver": Tally.is_undriven, "two drivers": lambda tally: tally.drivers() > 1,
            "clock use": lambda tally: tally.misuses_clock(clocks),
        }
        for kind, has_fault in faults.items():
            for tally in tallies:
                if has_fault(tally):
                    raise fault(1, kind, *tally.names)

    def links(self):
        """For each output those on which it depends at once."""
        drivers = {i.nets[bit]: (i.name, bit) for i in self.instances for bit in i.model.outputs}
        ends = [(i, bit) for i in self.instances for bit in i.model.outputs]
        return {(i.name, bit): {drivers[i.nets[pin]] for pin in i.model.depends[bit] if i.nets[pin] in drivers} for i, bit in ends}

    def outputs_in_order(self):
        links = self.links()
        waits = {end: set(others) for end, others in links.items()}
        readers = {}
        for end, others in links.items():
            for other in others:
                readers.setdefault(other, []).append(end)
        ready, done = [end for end, others in links.items() if not others], []
        while ready:
            end = ready.pop()
            done.append(end)
            for reader in readers.get(end, ()):
                waits[reader].discard(end)
                if not waits[reader]:
                    ready.append(reader)
        if len(done) < len(links):
            raise NetRing(links)
        return done

    # what pat_oracle.py asks for

    def opaque(self):
        """The cell of the first instance that has no behaviour, or None."""
        return next((i.model.name for i in self.instances if i.model.machine is None), None)

    def clock_of(self, inputs):
        return inputs[self.clock] if self.clock else 0

    def of_instance(self, instance, env):
        """What an instance shows and loads; an input that hasn't settled yet counts as 0, and nothing depends on it."""
        inputs = tuple(env.get(instance.nets[pin], 0) for pin in instance.model.inputs)
        return instance.model.run(inputs, tuple(env[instance.name, bit] for bit in instance.model.registers))

    def settle(self, inputs, contents):
        env = {**inputs, **contents, ("vdd", -1): 1, ("vss", -1): 0}
        for name, bit in self.order:
            instance = self.owners[name]
            env[instance.nets[bit]] = self.of_instance(instance, env)[0][bit]
        return env

    def load(self, env):
        return {(i.name, bit): value for i in self.instances for bit, value in zip(i.model.registers, self.of_instance(i, env)[1])}


def netlist(text, models):
    if len(text) > FILE:
        raise limit("file", FILE + 1)
    reader = StructureReader(*lex(text))
    structure = reader.structure()
    for bounds, line in reader.ranges:
        if not ordered(bounds):
            raise fault(line, "width")
    for line in reader.forms:
        raise fault(line, "unsupported")
    instances = Linker(reader, structure, models).instances()
    ports = {bit: s.role for s in reader.symbols if s.role in (IN, OUT) for bit in s.bits()}
    return Netlist(structure.name, ports, instances)
