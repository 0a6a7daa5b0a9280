"""The one spelling of a netlist as a structural text, written from docs/formats/netlists.md."""

import itertools

from .vhdl_reader import SUPPLIES, spelled


def port_lines(ports):
    """Ports with their directions, those of one name as one vector, from the highest bit down."""
    of_name = {}
    for name, k in sorted(ports):
        of_name.setdefault(name, []).append(k)
    typed = {name: "bit" if ks == [-1] else f"bit_vector ({ks[-1]} downto {ks[0]})" for name, ks in of_name.items()}
    return ";\n".join(f"  {name} : {ports[name, of_name[name][0]]} {kind}" for name, kind in typed.items())


def net_names(n):
    """Each bit of a net with its name: that of its port, or `n` and a number, in the order in which pins have them first."""
    taken = {name for name, _ in n.all_ports}
    free = (name for k in itertools.count() if (name := f"n{k}") not in taken)
    names = {bit: spelled(bit) for bit in n.all_ports}
    for instance in n.instances:
        for pin in sorted(instance.nets):
            net = instance.nets[pin]
            names[net] = names.get(net) or next(free)
    return names


def own_names(n):
    """Each bit of a net as it is called."""
    return {bit: spelled(bit) for bit in [*n.all_ports, *(net for i in n.instances for _, net in sorted(i.nets.items()))]}


def signal_lines(bits):
    """Signals of these bits, those of one name as one vector."""
    of_name = {}
    for name, k in bits:
        of_name.setdefault(name, []).append(k)
    return [f"signal {name} : {'bit' if ks == [-1] else f'bit_vector ({max(ks)} downto {min(ks)})'};\n" for name, ks in of_name.items()]


def laid_out(n, named_as_they_are=False):
    """The text of a netlist in which no two ports are one class."""
    names = own_names(n) if named_as_they_are else net_names(n)
    models = {i.model.name: i.model for i in n.instances}
    lines = [f"entity {n.name} is\nport (\n{port_lines(n.all_ports)});\nend {n.name};\n\narchitecture structural of {n.name} is\n"]
    lines += [f"component {name}\nport (\n{port_lines(model.pins)});\nend component;\n" for name, model in models.items()]
    inner = [bit if named_as_they_are else (name, -1) for bit, name in names.items() if bit not in n.all_ports]
    lines += signal_lines(bit for bit in inner if bit[0] not in SUPPLIES)
    lines.append("begin\n")
    for instance in n.instances:
        pairs = ",\n".join(f"  {spelled(pin)} => {names[net]}" for pin, net in sorted(instance.nets.items()))
        lines.append(f"{instance.name} : {instance.model.name}\nport map (\n{pairs});\n")
    return "".join(lines) + "end structural;\n"
