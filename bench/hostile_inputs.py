"""The files of hostile.sh: families by name, each with the words of a run, the numbers at which it is tried, and a function from a number to the
files beside the library."""

import pathlib
import sys

sys.path.append(str(pathlib.Path(__file__).resolve().parent.parent))
from acceptance.tools import fmi, syf  # noqa: E402

FIVE = ("inv_x1", "na2_x1", "zero_x0", "one_x0", "sff1_x4")
CHAIN, DEPTH, PORTS, CELLS = 16384, 256, 4096, 1024
MOST_VBE = 1 << 20


# ---- layouts


def layout(lines):
    return {"s.ap": ("V ALLIANCE : 6\nH s,P,01/01/2000,100\nA 0,0,100000,100000\n" + "".join(f"{line}\n" for line in lines) + "EOF\n").encode()}


def on_each_other(n):
    return layout("S 1000,1000,9000,1000,200,*,RIGHT,ALU2" for _ in range(n))


def in_each_other(n):
    return layout(f"S {-1000 * k},0,{1000 * k},0,{2000 * k + 200},*,RIGHT,ALU2" for k in range(n))


def in_a_chain(n):
    return layout(f"S {1000 * k},0,{1000 * k + 1000},0,200,*,RIGHT,ALU2" for k in range(n))


def crossing(n):
    """Half lie one beside the other, and half across all of these."""
    side = 200 * n
    along = (f"S 0,{400 * k},{side},{400 * k},200,*,RIGHT,ALU2" for k in range(n // 2))
    return layout([*along, *(f"S {400 * k},0,{400 * k},{side},200,*,UP,ALU3" for k in range(n // 2))])


def one_over_another(n):
    """Each lies on the ones before it but for its left end."""
    return layout(f"S {10 * k},1000,{10 * k + 900000},1000,200,*,RIGHT,ALU2" for k in range(n))


def on_each_other_and_near(n):
    """Wires on each other, and one that is too near to them all."""
    return layout([*("S 1000,1000,9000,1000,200,*,RIGHT,ALU2" for _ in range(n)), "S 1000,1300,9000,1300,200,*,RIGHT,ALU2"])


def nearly_touching(n):
    """Each is nearer to the next one than the gap."""
    return layout(f"S 0,{300 * k},9000,{300 * k},200,*,RIGHT,ALU2" for k in range(n))


def instances_on_each_other(n):
    return layout(f"I 0,0,inv_x1,i{k},NOSYM" for k in range(n))


def ports_of_one_name(n):
    return layout(f"C {1000 * k},0,200,p {k % PORTS},0,WEST,ALU2" for k in range(n))


def marks_of_one_point(n):
    return layout(f"R 0,0,ref_ref,r{k}" for k in range(n))


def near_in_pairs(n):
    """Half lie on each other, and the other half on each other beside them, nearer than the gap: each of these is too near to each of those."""
    return layout(f"S 1000,{1000 + 300 * (k % 2)},9000,{1000 + 300 * (k % 2)},200,*,RIGHT,ALU2" for k in range(n))


def apart_beside_another_metal(n):
    """Lines of metal 2 that don't touch, and one of metal 6."""
    return layout([*(f"S 0,{600 * k},9000,{600 * k},200,*,RIGHT,ALU2" for k in range(n)), "S 0,0,9000,0,200,*,RIGHT,ALU6"])


def with_table(make, grow="10 10 10 10 10 10"):
    return lambda n: {**make(n), "t.real": f"scale 2\ngrow {grow}\n".encode()}


def with_port(make):
    """With a connector, so that the layout has a netlist."""
    return lambda n: {"s.ap": make(n)["s.ap"].replace(b"EOF", b"C 0,0,200,q,0,WEST,ALU4\nEOF")}


# ---- netlists


def netlist(nets, lines, ports="a : in bit; y : out bit"):
    declared = "".join(f"signal {net} : bit;\n" for net in nets)
    component = "component inv_x1 port (i : in bit; nq : out bit; vdd : in bit; vss : in bit); end component;\n"
    head = f"entity s is port ({ports}; vdd : in bit; vss : in bit); end s;\narchitecture x of s is\n{component}{declared}begin\n"
    return {"s.vst": (head + "".join(lines) + "end x;\n").encode()}


def inverter(name, i, nq):
    return f"{name} : inv_x1 port map (i => {i}, nq => {nq}, vdd => vdd, vss => vss);\n"


def one_net(n):
    """One net that n pins read."""
    return netlist([f"n{k}" for k in range(n - 1)], [inverter("g0", "a", "y"), *(inverter(f"g{k + 1}", "y", f"n{k}") for k in range(n - 1))])


def inverters(n):
    """Inverters beside each other, each between two ports of its own: the pins of many are beset by the wires of others."""
    ports = "; ".join(f"i{k} : in bit; o{k} : out bit" for k in range(n))
    return netlist([], [inverter(f"g{k}", f"i{k}", f"o{k}") for k in range(n)], ports)


def inverter_chain(n):
    nets = ["a", *(f"n{k}" for k in range(n - 1)), "y"]
    return netlist(nets[1:-1], [inverter(f"g{k}", nets[k], nets[k + 1]) for k in range(n)])


def backward_chain(n):
    """The chain with its last gate first."""
    nets = ["a", *(f"n{k}" for k in range(n - 1)), "y"]
    return netlist(nets[1:-1], [inverter(f"g{k}", nets[k], nets[k + 1]) for k in reversed(range(n))])


def shift_register(n):
    """Flip-flops that each load what the one before shows, on a path the other way round."""
    nets = ["a", *(f"n{k}" for k in range(n - 1)), "y"]
    component = "component sff1_x4 port (ck : in bit; i : in bit; q : out bit; vdd : in bit; vss : in bit); end component;\n"
    lines = [f"q{k} : sff1_x4 port map (ck => ck, i => {nets[k]}, q => {nets[k + 1]}, vdd => vdd, vss => vss);\n" for k in range(n)]
    text = netlist(nets[1:-1], lines, "ck : in bit; a : in bit; y : out bit")["s.vst"].replace(b"begin\n", component.encode() + b"begin\n", 1)
    return {"s.vst": text, "s.path": "".join(f"q{k}\n" for k in reversed(range(n))).encode()}


def with_blank_path(make):
    """Without registers; the path has as many blank lines as it may."""
    return lambda n: {**make(n), "s.path": b"\n" * min(64 * n, MOST_VBE)}


def with_other(make):
    return lambda n: {**make(n), "o.vst": make(n)["s.vst"]}


def with_patterns(make, columns="in a;\nout y;\n", line="0 ?*"):
    return lambda n: {**make(n), "t.pat": f"{columns}begin\n< 0 ns> : {line};\nend;\n".encode()}


# ---- sources


def source(body, ports="i : in bit; o : out bit", declared=""):
    return f"entity s is port ({ports}; vdd : in bit; vss : in bit); end s;\narchitecture v of s is\n{declared}begin\n{body}end v;\n".encode()


def nested(n):
    """Equations of 256 parentheses in each other."""
    return {"s.vbe": source("".join(f"o({k}) <= {'(' * DEPTH}i{')' * DEPTH};\n" for k in range(n)), f"i : in bit; o : out bit_vector ({n - 1} downto 0)")}


def nested_nots(n):
    """A chain of parentheses and of inversions, 256 deep, over two inputs in turn."""
    deep = "".join(f"not (i({k % 2}) xor " for k in range(DEPTH - 1)) + "i(0)" + ")" * (DEPTH - 1)
    return {"s.vbe": source("".join(f"o({k}) <= {deep};\n" for k in range(n)), f"i : in bit_vector (1 downto 0); o : out bit_vector ({n - 1} downto 0)")}


def long_chain(n):
    return {"s.vbe": source(f"o <= i{' and i' * n};\n")}


def chain_of_signals(n):
    names = ["i", *(f"s{k}" for k in range(n - 1)), "o"]
    declared = "".join(f"signal {name} : bit;\n" for name in names[1:-1])
    return {"s.vbe": source("".join(f"{names[k + 1]} <= not {names[k]};\n" for k in range(n)), declared=declared)}


def wide_signal(n):
    return {"s.vbe": source(f"s <= \"{'01' * (n // 2)}\";\no <= i;\n", declared=f"signal s : bit_vector ({n - 1} downto 0);\n")}


def wide_ports(n):
    """Vectors of n bits."""
    return {"s.vbe": source("o <= not i;\n", f"i : in bit_vector ({n - 1} downto 0); o : out bit_vector ({n - 1} downto 0)")}


def parity(n):
    """Each output is the parity of all inputs up to its own: diagrams grow with the square."""
    body = "o(0) <= i(0);\n" + "".join(f"o({k}) <= o({k - 1}) xor i({k});\n" for k in range(1, n))
    return {"s.vbe": source(body, f"i : in bit_vector ({n - 1} downto 0); o : out bit_vector ({n - 1} downto 0)")}


def multiplexers(n):
    """A choice of n values by n conditions."""
    values = "".join(f"i({k % 16}) when i({(k * 7 + 3) % 16}) else " for k in range(n))
    return {"s.vbe": source(f"o <= {values}'0';\n", "i : in bit_vector (15 downto 0); o : out bit")}


def chain_of_nands(n):
    """Each reads the one before and one of two inputs: a cut of the last has any one of them, and both inputs."""
    names = ["a nand b", *(f"s({k}) nand {'ab'[k % 2]}" for k in range(n - 1))]
    body = "".join(f"s({k}) <= {name};\n" for k, name in enumerate(names)) + f"o <= s({n - 1});\n"
    return {"s.vbe": source(body, "a : in bit; b : in bit; o : out bit", f"signal s : bit_vector ({n - 1} downto 0);\n")}


def four_chains(n):
    """Four such chains of n nands that meet in one gate, each behind a node of its own: its cuts have any one of each chain."""
    heads = ["a nand b", "p(0) nand a", "p(0) nand b", "p(1) nand b", "p(1) nand (not a)", "p(2) nand a", "p(2) nand (not b)"]
    body = [f"p({k}) <= {head};" for k, head in enumerate(heads)] + [f"q({k}) <= p({k + 3});" for k in range(4)]
    for chain in range(4):
        before = [f"p({chain + 3})", *(f"s({chain * n + k})" for k in range(n - 1))]
        body += [f"s({chain * n + k}) <= {name} nand {'ab'[k % 2]};" for k, name in enumerate(before)]
    ends = [f"s({chain * n + n - 1})" for chain in range(4)]
    body.append(f"o <= ({ends[0]} nand {ends[1]}) nand ({ends[2]} nand {ends[3]});")
    declared = f"signal p : bit_vector (6 downto 0);\nsignal s : bit_vector ({4 * n - 1} downto 0);\n"
    ports = "a : in bit; b : in bit; o : out bit; q : out bit_vector (3 downto 0)"
    return {"s.vbe": source("".join(f"{line}\n" for line in body), ports, declared)}


def twice(make):
    return lambda n: {**make(n), "o.vbe": make(n)["s.vbe"]}


def many_patterns(n):
    lines = "".join(f"< {k} ns> : {k % 2} ?*;\n" for k in range(n))
    return {"s.vbe": source("o <= not i;\n"), "t.pat": f"in i;\nout o;\nbegin\n{lines}end;\n".encode()}


def comment(n):
    return {"s.vbe": source("o <= i;\n") + b"--" + b"x" * n + b"\n"}


# ---- state machines


def states(n):
    return {"s.fsm": syf.ring(n)}


def outputs(n):
    """64 states, each of which sets n outputs."""

    def shown(k):
        """The bits that state k sets, in texts of at most 100."""
        return " & ".join(f"\"{''.join(str((k + j) % 2) for j in range(at, min(n, at + 100)))}\"" for at in range(0, n, 100))

    branches = "".join(f"when s{k} => o <= {shown(k)}; ns <= s{(k + 1) % 64};\n" for k in range(64))
    names = ", ".join(f"s{k}" for k in range(64))
    return {"s.fsm": syf.text_of(names, f"case cs is\n{branches}end case;\n", f"o : out bit_vector ({n - 1} downto 0)")}


def vectors(n):
    """An output of many bits is assigned n times."""
    wide = 2000
    ports = f"i : in bit_vector ({wide - 1} downto 0); o : out bit_vector ({wide - 1} downto 0)"
    return {"s.fsm": syf.text_of("s0, s1", f"{'o <= i;' * n}\nns <= s0;\ncase cs is end case;\n", ports)}


def deep_ifs(n):
    """n ifs one after the other, each 200 deep."""
    one = "if i then " * 200 + "ns <= s0; " + "else ns <= s1; end if; " * 200
    return {"s.fsm": syf.text_of("s0, s1", f"o <= '0';\nns <= s0;\n{one * n}\ncase cs is end case;\n", "i : in bit; o : out bit")}


def counters(n):
    """Each round tells one more state apart."""
    return {"s.fsm": fmi.counter(n)}


def unread_inputs(n):
    """The chain of 256 states, with n inputs that no statement reads."""
    return {"s.fsm": fmi.counter(256).replace(b"i : in bit;", f"i : in bit; v : in bit_vector ({n - 1} downto 0);".encode(), 1)}


def read_vectors(n):
    """64 states, each of which leads to the next one under the last of n vectors."""
    inputs = n.bit_length() - 1
    branches = "".join(f"when s{k} => if v = \"{'1' * inputs}\" then ns <= s{min(k + 1, 63)}; else ns <= s{k}; end if;\n" for k in range(64))
    body = f"o <= '0';\ncase cs is\n{branches}end case;\n".replace("when s63 =>", "when s63 => o <= '1';")
    return {"s.fsm": syf.text_of(", ".join(f"s{k}" for k in range(64)), body, f"v : in bit_vector ({inputs - 1} downto 0); o : out bit")}


def shown_inputs(n):
    """16 states, which set n outputs by 12 inputs."""
    branches = "".join(f"when s{k} => ns <= s{(k + 1) % 16};\n" for k in range(16))
    values = " & ".join(["(v xor \"101010101010\")"] * (n // 12))
    ports = f"v : in bit_vector (11 downto 0); o : out bit_vector ({n - 1} downto 0)"
    return {"s.fsm": syf.text_of(", ".join(f"s{k}" for k in range(16)), f"o <= {values};\ncase cs is\n{branches}end case;\n", ports)}


# ---- libraries


def catal(n):
    """A list of n cells, without their files where there are too many, and else with files of one cell each."""
    files = {"s.vbe": source("o <= not i;\n")}
    for k in range(n):
        for end in ("vbe", "ap"):
            text = (pathlib.Path(__file__).resolve().parent.parent / f"cells/inv_x1.{end}").read_bytes()
            files[f"lib/c{k}.{end}"] = text.replace(b"inv_x1", f"c{k}".encode())
    files["lib/CATAL"] = "".join(f"{name} C\n" for name in (*FIVE, *(f"c{k}" for k in range(n)))).encode()
    return files


def wide_cell(n):
    """The inverter with n more wires in its box, all on one pin."""
    text = (pathlib.Path(__file__).resolve().parent.parent / "cells/inv_x1.ap").read_bytes()
    more = "".join("S 500,1000,500,4000,200,*,UP,ALU1\n" for _ in range(n)).encode()
    return {"s.vbe": source("o <= not i;\n"), "lib/inv_x1.ap": text.replace(b"EOF", more + b"EOF")}


# ---- the families


def doubled(first, last):
    found = [first]
    while found[-1] * 2 <= last:
        found.append(found[-1] * 2)
    return found


SHAPES, PINS = doubled(1000, 16000), doubled(1000, 16000)
FLOW, OUT = "flow s.vbe -l lib -o n --tracks", "-l lib -o n"
FAMILIES = {
    **{f"druc, {name}": ("druc s.ap -l lib", SHAPES, make) for name, make in {
        "wires on each other": on_each_other, "wires in each other": in_each_other, "wires in a chain": in_a_chain, "wires across": crossing,
        "wires one over another": one_over_another, "wires on each other and one near": on_each_other_and_near,
        "wires too near": nearly_touching, "wires too near, each to half of all": near_in_pairs, "instances on each other": instances_on_each_other}.items()},
    **{f"s2r, {name}": (f"s2r s.ap -p t.real {OUT}", SHAPES, with_table(make)) for name, make in {
        "wires on each other": on_each_other, "wires in each other": in_each_other, "wires one over another": one_over_another,
        "wires in a chain": in_a_chain}.items()},
    "s2r, wires apart, and another metal grows": (f"s2r s.ap -p t.real {OUT}", SHAPES, with_table(apart_beside_another_metal, "0 0 0 0 0 1000000")),
    **{f"cougar, {name}": (f"cougar s.ap {OUT}", SHAPES, with_port(make)) for name, make in {
        "wires on each other": on_each_other, "wires in a chain": in_a_chain, "wires across": crossing, "instances on each other": instances_on_each_other,
        "connectors of one port": ports_of_one_name, "marks": marks_of_one_point}.items()},
    **{f"{tool}, one net": (f"{tool} s.vst {OUT}", PINS, one_net) for tool in ("loon", "ocp", "flatbeh")},
    **{f"{tool}, a chain of gates": (f"{tool} s.vst {OUT}", PINS, inverter_chain) for tool in ("loon", "ocp", "flatbeh")},
    **{f"{tool}, {name}": (f"ocp s.vst -l lib -o p --moves 0 && {tool} s.vst -p p.ap {OUT}", doubled(250, 2000), make)
       for tool in ("nero", "rip") for name, make in {"one net": one_net, "a chain of gates": inverter_chain}.items()},
    "rip, many ports on four metals":
        (f"ocp s.vst -l lib -o p --moves 0 --rows 1 && rip s.vst -p p.ap {OUT} --metals 4 --rips 100", doubled(100, 1600), inverters),
    "scapin, flip-flops in a row": (f"scapin s.vst -p s.path {OUT}", PINS, shift_register),
    "scapin, a chain of gates": (f"scapin s.vst -p s.path {OUT}", PINS, with_blank_path(inverter_chain)),
    "flatbeh, a chain backwards": (f"flatbeh s.vst {OUT}", PINS, backward_chain),
    "lvx, one net": ("lvx s.vst -b o.vst -l lib", PINS, with_other(one_net)),
    "lvx, a chain of gates": ("lvx s.vst -b o.vst -l lib", PINS, with_other(inverter_chain)),
    "asimut, one net": ("asimut s.vst -p t.pat -l lib", PINS, with_patterns(one_net)),
    "asimut, a chain of gates": ("asimut s.vst -p t.pat -l lib", PINS, with_patterns(backward_chain)),
    "asimut, many patterns": ("asimut s.vbe -p t.pat", doubled(4000, 32000), many_patterns),
    "asimut, a wide signal": ("asimut s.vbe -p t.pat", doubled(65536, 1 << 19), with_patterns(wide_signal, "in i;\nout o;\n")),
    "boom, a wide signal": ("boom s.vbe -o n", doubled(65536, 1 << 19), wide_signal),
    "boom, nested parentheses": ("boom s.vbe -o n", doubled(125, 1000), nested),
    "boom, nested operators": ("boom s.vbe -o n", doubled(4, 16), nested_nots),
    "boom, one long expression": ("boom s.vbe -o n", doubled(2047, CHAIN), long_chain),
    "boom, a chain of signals": ("boom s.vbe -o n", doubled(2048, CHAIN), chain_of_signals),
    "boom, wide ports": ("boom s.vbe -o n", doubled(256, PORTS // 2 - 1), wide_ports),
    "boom, parities": ("boom s.vbe -o n", doubled(100, 800), parity),
    "boom, a long choice": ("boom s.vbe -o n --nodes 4000000", doubled(500, 4000), multiplexers),
    "boom, a long comment": ("boom s.vbe -o n", doubled(125000, 1000000), comment),
    "boog, a chain of signals": (f"boog s.vbe {OUT}", doubled(2048, CHAIN), chain_of_signals),
    "boog, wide ports": (f"boog s.vbe {OUT}", doubled(256, PORTS // 2 - 1), wide_ports),
    "area, a chain of signals": ("area s.vbe -l lib", doubled(2048, CHAIN), chain_of_signals),
    "area, a chain of nands": ("area s.vbe -l lib", doubled(250, 4000), chain_of_nands),
    "area, four chains of nands": ("area s.vbe -l lib", doubled(4, 32), four_chains),
    "area, wide ports": ("area s.vbe -l lib", doubled(256, PORTS // 2 - 1), wide_ports),
    "proof, a chain of signals": ("proof s.vbe -b o.vbe", doubled(2048, CHAIN), twice(chain_of_signals)),
    "proof, parities": ("proof s.vbe -b o.vbe", doubled(100, 800), twice(parity)),
    "syf, states": ("syf s.fsm -o n", doubled(32, 256), states),
    "syf, states by one bit each": ("syf s.fsm -o n -e o", doubled(32, 256), states),
    "syf, outputs of 64 states": ("syf s.fsm -o n", doubled(500, 4000), outputs),
    "syf, vectors": ("syf s.fsm -o n", doubled(125, 1000), vectors),
    "syf, deep ifs": ("syf s.fsm -o n", doubled(16, 128), deep_ifs),
    "fmi, states in a chain": ("fmi s.fsm -o n", doubled(32, 256), counters),
    "fmi, inputs that nothing reads": ("fmi s.fsm -o n", doubled(500, 4000), unread_inputs),
    "fmi, vectors": ("fmi s.fsm -o n", doubled(64, 4096), read_vectors),
    "fmi, outputs of 64 states": ("fmi s.fsm -o n", doubled(500, 4000), outputs),
    "fmi, outputs under 4,096 vectors": ("fmi s.fsm -o n", doubled(48, 384), shown_inputs),
    "fmi, deep ifs": ("fmi s.fsm -o n", doubled(16, 128), deep_ifs),
    "flow, a chain of signals": (FLOW, doubled(2048, 16000), chain_of_signals),
    "flow, wide ports": (FLOW, doubled(256, PORTS // 2 - 1), wide_ports),
    "flow over rows, wide ports": ("flow s.vbe -l lib -o n", doubled(16, 128), wide_ports),
    "flow, cells": (FLOW, doubled(125, 1000), catal),
    "flow, a cell of many wires": (FLOW, doubled(1000, 16000), wide_cell),
}
