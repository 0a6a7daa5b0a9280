"""Machines and netlists as Verilog: `of_machine` and `of_netlist` with each bit as a net of its own, with its name as an escaped identifier;
`module_of_machine` and `module_of_netlist` as one writes it by hand, with vectors."""

from .models import IN
from .vhdl_reader import SUPPLIES, spelled

SIGNS = {"and": "&", "or": "|", "xor": "^", "xnor": "~^", "nand": "&", "nor": "|"}


def net(bit):
    """The bit's name; the blank ends it."""
    return f"\\{spelled(bit)} "


def formula(f, net=net):
    """A formula of the second reader of data-flow texts; `net` spells its bits."""
    if isinstance(f, int):
        return f"1'b{f}"
    if f[0] == "bit":
        return net(f[1])
    if f[0] == "not":
        return f"(~{formula(f[1], net)})"
    if f[0] == "join":
        joined = f"({f' {SIGNS[f[1]]} '.join(formula(part, net) for part in f[2])})"
        return f"(~{joined})" if f[1] in ("nand", "nor") else joined
    last = formula(f[2], net)
    for condition, value in reversed(f[1]):
        last = f"({formula(condition, net)} ? {formula(value, net)} : {last})"
    return last


def module(name, ports, lines):
    declared = ", ".join(f"{'input' if way == IN else 'output'} {net(bit)}" for bit, way in ports.items())
    return f"module \\{name} ({declared});\n{''.join(lines)}endmodule\n"


def of_machine(m, name="top:"):
    """A module; its name, like those of the others, has what no name of a text has."""
    lines = [f"reg {net(bit)}= 1'b0;\n" for bit in m.registers]
    lines += [f"wire {net(bit)};\n" for bit, _ in m.equations if bit not in m.ports]
    lines += [f"assign {net(bit)}= {formula(f)};\n" for bit, f in m.equations]
    loads = [f"if ({formula(enable)}) {net(bit)}<= {formula(then)};\n" for bit, (then, enable) in m.registers.items()]
    if loads:
        lines += [f"always @(posedge {net((m.clock, -1))}) begin\n", *loads, "end\n"]
    return module(name, m.ports, lines)


def of_netlist(n):
    """A module, behind one for each cell."""
    cells = {i.model.name: i.model.machine for i in n.instances}
    texts = [of_machine(machine, f"{name}:") for name, machine in cells.items()]
    inner = {bit for i in n.instances for bit in i.nets.values()} - set(n.ports) - {(supply, -1) for supply in SUPPLIES}
    lines = [f"wire {net(bit)};\n" for bit in sorted(inner)]
    lines += [f"wire {net((supply, -1))}= 1'b{value};\n" for supply, value in zip(SUPPLIES, (1, 0))]
    for i in n.instances:
        pins = ", ".join(f".{net(pin)}({net(bit)})" for pin, bit in i.nets.items() if pin[0] not in SUPPLIES)
        lines.append(f"\\{i.model.name}: \\{i.name}: ({pins});\n")
    return "".join(texts) + module("top:", n.ports, lines)


# ---- with vectors

RESERVED = set(
    """always and assign automatic begin buf bufif0 bufif1 case casex casez cell cmos config deassign default defparam design disable edge else end
    endcase endconfig endfunction endgenerate endmodule endprimitive endspecify endtable endtask event for force forever fork function generate
    genvar highz0 highz1 if ifnone incdir include initial inout input instance integer join large liblist library localparam macromodule medium
    module nand negedge nmos nor noshowcancelled not notif0 notif1 or output parameter pmos posedge primitive pull0 pull1 pulldown pullup
    pulsestyle_ondetect pulsestyle_onevent rcmos real realtime reg release repeat rnmos rpmos rtran rtranif0 rtranif1 scalared showcancelled
    signed small specify specparam strong0 strong1 supply0 supply1 table task time tran tranif0 tranif1 tri tri0 tri1 triand trior trireg unsigned
    use uwire vectored wait wand weak0 weak1 while wire wor xnor xor""".split()
)


def word(name):
    return f"\\{name} " if name in RESERVED else name


def bit(of):
    return word(of[0]) if of[1] < 0 else f"{word(of[0])}[{of[1]}]"


def vectors(bits):
    """Each name with its range, or nothing where it is one bit, in the order in which they come."""
    found = {}
    for name, k in bits:
        found.setdefault(name, []).append(k)
    return {name: "" if ks == [-1] else f"[{max(ks)}:{min(ks)}] " for name, ks in found.items()}


def declared(kind, bits):
    return [f"  {kind} {span}{word(name)};\n" for name, span in vectors(bits).items()]


def head(name, ports):
    spans = vectors(ports)
    ways = {of[0]: way for of, way in ports.items()}
    listed = ",\n".join(f"  {'input' if ways[name] == IN else 'output'} {span}{word(name)}" for name, span in spans.items())
    return f"module {word(name)} (\n{listed}\n);\n"


def module_of_machine(m, from_zero):
    """With registers that begin as 0, or as x."""
    lines = [line.replace(";", " = 0;") if from_zero else line for line in declared("reg", m.registers)]
    lines += declared("wire", [of for of, _ in m.equations if of not in m.ports])
    lines += [f"  assign {bit(of)} = {formula(f, bit)};\n" for of, f in m.equations]
    loads = []
    for of, (then, enable) in m.registers.items():
        loads.append(f"    {'' if enable == 1 else f'if ({formula(enable, bit)}) '}{bit(of)} <= {formula(then, bit)};\n")
    if loads:
        lines += [f"  always @(posedge {word(m.clock)}) begin\n", *loads, "  end\n"]
    return head(m.name, m.ports) + "".join(lines) + "endmodule\n"


def pins_of(instance, named):
    """The pins of an instance with their nets; those of one name as one."""
    of_name = {}
    for pin, net in instance.nets.items():
        if pin[0] not in SUPPLIES:
            of_name.setdefault(pin[0], []).append((pin[1], named[net]))
    for name, nets in of_name.items():
        texts = [text for _, text in sorted(nets, reverse=True)]
        yield f".{word(name)}({texts[0] if nets[0][0] < 0 else '{' + ', '.join(texts) + '}'})"


def label(name, taken, nets):
    """An instance's name, with underscores behind it where a net is called so: in Verilog they have one list of names."""
    if name not in nets.values() and name not in {net[0] for net in nets}:
        return word(name)
    while name in taken:
        name += "_"
    taken.add(name)
    return word(name)


def module_of_netlist(n, names):
    """A module of instances. `names` gives the name of each net that no port has."""
    named = {net: bit(net) if net in n.all_ports else names[net] for i in n.instances for net in i.nets.values()}
    used = {net for i in n.instances for pin, net in i.nets.items() if pin[0] not in SUPPLIES}
    lines = [f"  supply{value} {supply};\n" for supply, value in zip(SUPPLIES, (1, 0)) if (supply, -1) in used]
    lines += [f"  wire {named[net]};\n" for net in sorted(used, key=lambda net: named[net]) if net not in n.all_ports]
    taken = {name for name, _ in n.all_ports} | set(named.values()) | {i.name for i in n.instances}
    lines += [f"  {word(i.model.name)} {label(i.name, taken, named)} ({', '.join(pins_of(i, named))});\n" for i in n.instances]
    return head(n.name, n.ports) + "".join(lines) + "endmodule\n"


def modules_of_cells(n, from_zero):
    """A module for each cell that the netlist has instances of."""
    cells = {i.model.name: i.model.machine for i in n.instances}
    return "".join(f"\n{module_of_machine(m, from_zero)}" for _, m in sorted(cells.items()))
