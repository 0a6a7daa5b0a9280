"""Which buffers and drives the netlists of layouts have, for the second readers of `flow` and `gen`, written from docs/formats/netlists.md
and measures.md.

`unbuffered(n, models)` gives the netlist as it was mapped, but for the drives of its gates: the instances named b taken out, and the first
flip-flop of the library in the place of each of its drives. `faults(n, models, fanout)` says what of the buffers and drives isn't as it has
to be.
"""

from acceptance.meaning.fanout import counts, limited
from acceptance.tools.loon import drive_faults, structure_faults
from share.formats.models import IN, first_of
from share.formats.vhdl_reader import SUPPLIES, Refused
from share.formats.vst import Instance, Netlist


def is_buffer(instance):
    return instance.name.startswith("b")


def ties(n):
    """The net in front of each net that a buffer drives."""
    return {i.nets[pin]: i.nets[i.model.inputs[0]] for i in n.instances if is_buffer(i) for pin in i.model.outputs if len(i.model.inputs) == 1}


def in_front(tied, net):
    while net in tied:
        net = tied[net]
    return net


def undriven(model, models):
    """The first flip-flop of the library for each of its drives; of a gate it isn't known which drive was taken first."""
    if model.kind != "dff":
        return model
    first = first_of(models, "dff")
    return first if model.can_stand_for(first) else model


def unbuffered(n, models):
    """It raises Refused where what is left is no netlist."""
    tied = ties(n)
    left = [
        Instance(i.name, undriven(i.model, models), {pin: in_front(tied, net) for pin, net in i.nets.items()})
        for i in n.instances
        if not is_buffer(i)
    ]
    return Netlist(n.name, n.all_ports, left)


def input_counts(n):
    """How many input pins of instances each net has, but for those of the clock, vdd and vss."""
    found = {}
    for i in n.instances:
        for pin, net in i.nets.items():
            if i.model.pins[pin] == IN and pin[0] not in SUPPLIES and net != n.clock and net[0] not in SUPPLIES:
                found[net] = found.get(net, 0) + 1
    return found


def faults(n, models, fanout):
    most = max(input_counts(n).values(), default=0)
    if most > fanout:
        yield f"{most} input pins read one net"
    try:
        plain = unbuffered(n, models)
    except Refused as refused:
        yield f"without its buffers it is refused: {refused}"
        return
    if any(map(is_buffer, n.instances)) and max(counts(plain.instances).values(), default=0) <= fanout:
        yield "buffers that it would do without"
    items = limited(plain, models, fanout)
    if items is None:
        yield "buffers, and no cell for them"
        return
    yield from list(structure_faults(plain, n, items, fanout)) or drive_faults(n, models)
