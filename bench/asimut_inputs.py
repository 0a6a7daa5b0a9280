#!/usr/bin/env python3
"""Makes a circuit of two-input gates and registers, and patterns for it: as data-flow VHDL with a pattern file, and as
Verilog with a test bench that gives the same vectors and prints the outputs.

Usage: bench/asimut_inputs.py GATES PATTERNS FOLDER [SEED] [--nands | --blocks | --chain | --wide]

Writes c.vbe, p.pat, c.v and vectors.txt into the folder, and b.vbe, which has the ports of c.vbe and no gate. One gate in
fifty feeds a register; all have one clock, and it rises in every other pattern. With --nands all gates are nands and there
are 16 registers, so that 16,000 gates are within the size of a source that is mapped. With --blocks they stand besides in
blocks of 256, each over the inputs and a register of its own, so that diagrams stay small. With --chain all gates are
operators of one equation, at most 16,384. With --wide each gate is over bits of a vector that has as many as there are
gates, and gives a bit of an output that is as wide, at most 2,047.
"""
import pathlib
import random
import sys
from typing import NamedTuple

KINDS = ["and", "or", "xor", "nand", "nor", "xnor"]
VERILOG = {"and": ("", "&"), "or": ("", "|"), "xor": ("", "^"), "nand": ("~", "&"), "nor": ("~", "|"), "xnor": ("~", "^")}
WIDTH = 8
BLOCK = 256


class Circuit(NamedTuple):
    """Gates as (name, kind, operands), registers as (name, the name that it takes), and by bit the names that outputs show."""

    width: int
    gates: list
    registers: list
    outputs: list


def bits(width):
    return [f"d({k})" for k in range(width)]


def circuit(gates, choose, kinds=KINDS, count=None):
    """A gate reads registers, inputs and earlier gates."""
    registers = [f"r{k}" for k in range(count or max(gates // 50, 1))]
    names, made = bits(WIDTH) + registers, []
    for k in range(gates):
        near = names[-200:]
        left, right = choose.choice(near), choose.choice(names if choose.random() < 0.3 else near)
        made.append((f"g{k}", choose.choice(kinds), [left, right]))
        names.append(f"g{k}")
    loads = [(r, f"g{choose.randrange(gates)}") for r in registers]
    return Circuit(WIDTH, made, loads, [made[-1 - k][0] for k in range(WIDTH)])


def blocks(gates, choose):
    """As circuit: nands in blocks of 256, the last one perhaps smaller."""
    made, registers = [], []
    for first in range(0, gates, BLOCK):
        here = circuit(max(min(BLOCK, gates - first), WIDTH), choose, ["nand"], 1)
        of = {name: f"g{first + k}" for k, (name, *_) in enumerate(here.gates)} | {"r0": f"r{len(registers)}"}
        made += [(of[name], kind, [of.get(name, name) for name in operands]) for name, kind, operands in here.gates]
        registers.append((of["r0"], of[here.registers[0][1]]))
    return Circuit(WIDTH, made, registers, [made[-1 - k][0] for k in range(WIDTH)])


def chain(gates, choose):
    """One equation, over inputs and registers."""
    registers = [(f"r{k}", f"d({k})") for k in range(WIDTH)]
    names = bits(WIDTH) + [r for r, _ in registers]
    made = [("g0", "xor", [choose.choice(names) for _ in range(gates + 1)])]
    return Circuit(WIDTH, made, registers, ["g0"] + [r for r, _ in registers[1:]])


def wide(gates, choose):
    """A gate for each bit of a vector, over it and another bit or the register."""
    names = bits(gates) + ["r0"]
    made = [(f"g{k}", choose.choice(KINDS), [f"d({k})", choose.choice(names)]) for k in range(gates)]
    return Circuit(gates, made, [("r0", "g0")], [f"g{k}" for k in range(gates)])


def signals(names, kind):
    """Declarations of ten names a line."""
    return "".join(f"  signal {', '.join(names[k : k + 10])} : {kind};\n" for k in range(0, len(names), 10))


def vhdl(made):
    last = made.width - 1
    vectors = f"d : in bit_vector ({last} downto 0); q : out bit_vector ({last} downto 0)"
    lines = [f"entity c is port (ck : in bit; {vectors}); end c;\n", "architecture vbe of c is\n"]
    lines.append(signals([r for r, _ in made.registers], "reg_bit register"))
    lines.append(signals([name for name, *_ in made.gates], "bit"))
    lines.append("begin\n")
    lines += [f"{name} <= " + f" {kind}\n".join(operands) + ";\n" for name, kind, operands in made.gates]
    if made.registers:
        lines.append("state : block (ck and not ck'stable) begin\n")
        lines += [f"{r} <= guarded {gate};\n" for r, gate in made.registers]
        lines.append("end block;\n")
    lines += [f"q({k}) <= {name};\n" for k, name in enumerate(made.outputs)]
    return "".join(lines) + "end vbe;\n"


def verilog(made):
    at = lambda name: name.replace("(", "[").replace(")", "]")
    last = made.width - 1
    lines = [f"module c(input ck, input [{last}:0] d, output [{last}:0] q);\n"]
    lines += [f"reg {r} = 0;\n" for r, _ in made.registers]
    for name, kind, operands in made.gates:
        sign, operator = VERILOG[kind]
        lines.append(f"wire {name} = {sign}(" + f" {operator}\n".join(map(at, operands)) + ");\n")
    lines.append("always @(posedge ck) begin\n")
    lines += [f"{r} <= {at(gate)};\n" for r, gate in made.registers]
    lines.append("end\n")
    lines += [f"assign q[{k}] = {name};\n" for k, name in enumerate(made.outputs)]
    return "".join(lines) + "endmodule\n" + BENCH.replace("LAST", str(last))


# The inputs settle before the clock rises, and the outputs are shown when all has settled again.
BENCH = """module bench;
reg ck = 0; reg [LAST:0] d = 0; wire [LAST:0] q; integer file, got; reg [LAST:0] next_d; reg next_ck;
c dut(ck, d, q);
initial begin
  file = $fopen("vectors.txt", "r");
  got = $fscanf(file, "%b %h", next_ck, next_d);
  while (got == 2) begin
    d = next_d; #1 ck = next_ck; #1 $display("%h", q);
    got = $fscanf(file, "%b %h", next_ck, next_d);
  end
  $finish;
end
endmodule
"""

SHAPES = {
    "--nands": lambda gates, choose: circuit(gates, choose, ["nand"], 16),
    "--blocks": blocks,
    "--chain": chain,
    "--wide": wide,
}


def main():
    words = [word for word in sys.argv[1:] if word not in SHAPES]
    shape = next((SHAPES[word] for word in sys.argv[1:] if word in SHAPES), circuit)
    gates, patterns, folder = int(words[0]), int(words[1]), pathlib.Path(words[2])
    choose = random.Random(f"{words[3] if len(words) > 3 else 1} {gates} {patterns}")
    made = shape(gates, choose)
    last, digits = made.width - 1, (made.width + 3) // 4
    vectors = [(k % 2, choose.getrandbits(made.width)) for k in range(patterns)]
    rows = "".join(f"< {k} ns> : {ck} {d:0{digits}x} ?*;\n" for k, (ck, d) in enumerate(vectors))
    texts = {
        "c.vbe": vhdl(made),
        "b.vbe": vhdl(Circuit(made.width, [], [], bits(made.width))),
        "p.pat": f"in ck;\nin d ({last} downto 0) X;\nout q ({last} downto 0) X;\nbegin\n{rows}end;\n",
        "c.v": verilog(made),
        "vectors.txt": "".join(f"{ck} {d:0{digits}x}\n" for ck, d in vectors),
    }
    for name, text in texts.items():
        (folder / name).write_text(text)
    most = max(len(texts["c.vbe"]), len(texts["p.pat"]))
    if most > 1048576:
        sys.exit(f"{most} bytes are more than a file may have")


if __name__ == "__main__":
    main()
