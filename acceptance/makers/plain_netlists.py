"""Netlists with a cell for each node of a machine's graph, as they are and with one input pin on another net, to try what is said of mapped
netlists.
"""

from acceptance.meaning.mapping import Graph, read_nets, shown_net
from share.formats.models import IN, first_of
from share.formats.vhdl_reader import SUPPLIES
from share.formats.vst import Instance, Netlist

TIED = {(supply, -1): (supply, -1) for supply in SUPPLIES}


def plain_netlist(m, models):
    """The first cell of its kind for each register and for each node that a root needs."""
    graph, instances = Graph(m), []
    of_port = {number: bit for bit, number in graph.outputs.items()}
    nets = [node[1] if node[0] == "input" else of_port.get(k, (f"n_{k}", -1)) for k, node in enumerate(graph.nodes)]
    for k, (bit, load) in enumerate(graph.loads.items()):
        model = first_of(models, "dff")
        pins = {model.clock: (m.clock, -1), model.data(): nets[load], model.outputs[0]: nets[graph.of_bit[bit]]}
        instances.append(Instance(f"q{k}", model, TIED | pins))
    for k, number in enumerate(graph.live()):
        model = first_of(models, graph.nodes[number][0])
        pins = dict(zip(model.inputs, [nets[son] for son in graph.sons(number)]))
        instances.append(Instance(f"g{k}", model, TIED | pins | {model.outputs[0]: nets[number]}))
    return Netlist(m.name, m.ports | dict.fromkeys(TIED, IN), instances)


def with_a_pin_moved(choose, m, n):
    """One input of a gate reads another input, register or earlier gate; the same netlist where no gate has an input."""
    places = [k for k, i in enumerate(n.instances) if k >= len(m.registers) and i.model.inputs]
    if not places:
        return n
    at = choose.choice(places)
    known = [bit for bit, way in m.ports.items() if way == IN and bit != (m.clock, -1)] + [shown_net(i) for i in n.instances[:at]]
    name, model, nets = n.instances[at]
    moved = Instance(name, model, nets | {choose.choice(model.inputs): choose.choice(known)})
    return Netlist(n.name, n.all_ports, [*n.instances[:at], moved, *n.instances[at + 1 :]])


def has_an_and(m, n):
    """Whether an inverter alone reads a nand, and no port shows that."""
    readers = [net for i in n.instances for net in read_nets(i)]
    nands = {shown_net(i) for i in n.instances if i.model.kind == "nand2"}
    return any(i.model.kind == "inv" and net in nands and net not in m.ports and readers.count(net) == 1 for i in n.instances for net in read_nets(i))
