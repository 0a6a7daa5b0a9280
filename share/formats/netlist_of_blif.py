"""A flat netlist of a library's cells, of BLIF or Verilog, as a structural text.

Tables may be constants and buffers alone, as they join nets. An output that shows an input, or a net that another output shows, gets a
buffer; one that is constant a cell that shows this constant.
"""

from typing import NamedTuple

from . import lawful, wiring
from .blif_reader import Unfit
from .models import IN
from .vhdl_reader import SUPPLIES, Refused
from .vst import Instance, Netlist, NetRing
from .vst_writer import laid_out

PORTS = 4096
SUPPLY_BITS = {supply: (supply, -1) for supply in SUPPLIES}
CONSTANTS = {1: ("vdd", -1), 0: ("vss", -1)}


class Made(NamedTuple):
    text: str
    name: str
    ports: lawful.Declared
    renamed: dict
    anonymous: int
    cells: int
    registers: int


def pin_key(pin):
    name, bit = lawful.base_of(pin)
    return name.lower(), -1 if bit is None else bit


def first_with(models, table):
    return next((m for m in models.values() if m.is_usable and not m.registers and m.table() == table), None)


class Linker:
    def __init__(self, flat, models):
        self.flat, self.models, self.cells = flat, models, []
        for latch in flat.latches:
            raise Unfit(latch.line, f"the latch {latch.output} is no cell: map it first, by `dfflibmap -liberty`")
        if len(flat.inputs) + len(flat.outputs) > PORTS:
            raise Unfit(flat.line, f"{len(flat.inputs) + len(flat.outputs)} bits of ports; a netlist has at most {PORTS}")
        self.joins, self.constants = self.joined_nets()
        self.pins = [self.pins_of(instance) for instance in flat.instances]
        self.check()

    def joined_nets(self):
        """For each net that a table gives its source, and for each constant its value."""
        joins, constants = {}, {}
        for cover in self.flat.covers:
            if cover.constant() is not None:
                constants[cover.output] = cover.constant()
            elif cover.copied() is not None:
                joins[cover.output] = cover.copied()
            else:
                raise Unfit(cover.line, f"the table of {cover.output} is no cell: map it first, by `abc -genlib` or `abc -liberty`")
        return joins, constants

    def model_of(self, instance):
        model = self.models.get(instance.cell.lower())
        if model is None:
            raise Unfit(instance.line, f"{instance.cell} is no cell of the library")
        return model

    def pins_of(self, instance):
        """The nets of an instance by the pins of its model, those of supplies left out."""
        model, pins = self.model_of(instance), {}
        for pin, net in instance.pins.items():
            key = pin_key(pin)
            if key not in model.pins:
                raise Unfit(instance.line, f"{instance.cell} has no pin {pin}")
            if key[0] not in SUPPLIES:
                pins[key] = net
        for key, way in model.pins.items():
            if key not in pins and way == IN and key[0] not in SUPPLIES:
                raise Unfit(instance.line, f"the input {key[0]} of {instance.cell} is joined to nothing")
        return model, pins

    def check(self):
        """Drivers and rings: a table joins at once, a flip-flop doesn't."""
        flat = self.flat
        parts = [wiring.Part(c.line, [] if c.output in self.constants else c.inputs, [c.output]) for c in flat.covers]
        for instance, (model, pins) in zip(flat.instances, self.pins):
            reads = [net for pin, net in pins.items() if model.pins[pin] == IN]
            drives = [net for pin, net in pins.items() if model.pins[pin] != IN]
            parts.append(wiring.Part(instance.line, reads, drives, not model.registers))
        drivers = wiring.drivers_of(flat.inputs, parts)
        wiring.check_driven(flat.inputs, flat.outputs, parts, drivers)
        wiring.in_order(parts, drivers)

    def root(self, net):
        """The net that drives this one, through joins; each net on the way is joined to it at once."""
        path = []
        while net in self.joins:
            path.append(net)
            net = self.joins[net]
        self.joins.update((passed, net) for passed in path)
        return net

    # names

    def declare(self):
        flat, names = self.flat, lawful.Names()
        clocks = {self.root(pins[m.clock]) for m, pins in self.pins if m.clock}
        self.ports, _ = lawful.declare(names, [*flat.inputs, *flat.outputs], clocks, are_ports=True)
        self.shown = {}
        for net in flat.outputs:
            root = self.root(net)
            if root not in self.constants and root not in flat.inputs:
                self.shown.setdefault(root, net)
        roots = dict.fromkeys(self.root(net) for _, pins in self.pins for net in pins.values())
        inner = [net for net in roots if net not in flat.inputs and net not in self.constants and net not in self.shown]
        self.inner, anonymous = lawful.declare(names, inner)
        self.renamed = {**lawful.said_anew(self.ports, self.ports.of_net), **lawful.said_anew(self.inner, self.inner.of_net)}
        lawful.declare_anonymous(names, self.inner, anonymous)
        self.anonymous = len(anonymous)
        self.names = names

    def net(self, net):
        root = self.root(net)
        if root in self.constants:
            return CONSTANTS[self.constants[root]]
        port = root if root in self.flat.inputs else self.shown.get(root)
        return self.ports.key(port) if port else self.inner.key(root)

    # instances

    def label(self, labels, instance, model):
        if instance.name and not lawful.is_anonymous(instance.name):
            name = labels.new(instance.name)
            if name != instance.name.lower():
                self.renamed[instance.name] = name
            return name
        return labels.next_of("q" if model.registers else "g")

    def add(self, label, model, nets):
        for pin in model.pins:
            if pin not in nets:
                nets[pin] = SUPPLY_BITS.get(pin[0]) or (self.names.next_of("n"), -1)
        self.cells.append(Instance(label, model, nets))

    def add_given(self, labels):
        for instance, (model, pins) in zip(self.flat.instances, self.pins):
            self.add(self.label(labels, instance, model), model, {pin: self.net(net) for pin, net in pins.items()})

    def add_shown(self, labels):
        """Cells for the outputs that can't show their net itself."""
        for net, line in self.flat.outputs.items():
            root = self.root(net)
            if self.shown.get(root) == net:
                continue
            table = (self.constants[root],) if root in self.constants else (0, 1)
            model = first_with(self.models, table)
            if model is None:
                needed = "copies a net" if len(table) > 1 else f"shows {table[0]}"
                raise Unfit(line, f"the output {net} needs a cell that {needed}; the library has none")
            nets = {model.outputs[0]: self.ports.key(net), **{pin: self.net(root) for pin in model.inputs}}
            self.add(labels.next_of("b" if model.inputs else "g"), model, nets)

    def made(self):
        self.declare()
        labels, flat = lawful.Names(), self.flat
        name = lawful.Names().new(flat.name)
        if name != flat.name.lower():
            self.renamed[flat.name] = name
        self.add_given(labels)
        self.add_shown(labels)
        ways = {**dict.fromkeys(flat.inputs, "in"), **dict.fromkeys(flat.outputs, "out")}
        ports = {self.ports.key(net): way for net, way in ways.items()} | dict.fromkeys(SUPPLY_BITS.values(), "in")
        text = laid_out(checked(flat, name, ports, self.cells), named_as_they_are=True)
        return Made(text, name, self.ports, self.renamed, self.anonymous, len(self.cells), sum(bool(c.model.registers) for c in self.cells))


def checked(flat, name, ports, cells):
    """The netlist, which the second reader's checks find well."""
    try:
        return Netlist(name, ports, cells)
    except NetRing:
        raise Unfit(flat.line, "instances depend on each other in a ring, with no register between") from None
    except Refused as refused:
        words = str(refused).removeprefix("input 1 ")
        told = {"clock use": "the clock has to be an input that all registers have, and that nothing else reads"}
        raise Unfit(flat.line, next((f"{words}: {text}" for kind, text in told.items() if words.startswith(kind)), words)) from None


def netlist_of(flat, models):
    return Linker(flat, models).made()
