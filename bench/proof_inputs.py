#!/usr/bin/env python3
"""Writes pairs of sources that bench/proof.sh compares; acceptance/tools/boom.py and acceptance/tools/proof.py make them. Each also as BLIF and as Verilog.

Usage: bench/proof_inputs.py KIND BITS FOLDER      writes a, b and c, each .vbe, .blif and .v, into the folder

KIND is sum (an adder whose carries are majorities, and one whose carries are choices), times (a multiplier, and the same with its operands
exchanged), parity (from the left, and from the right by relations) or count (a counter with its carries in a chain, and as products). b does
what a does; in c one operator of b is another.
"""
import pathlib
import subprocess
import sys

HERE = pathlib.Path(__file__).resolve().parent
sys.path.append(str(HERE.parent))
from acceptance.meaning import verilog  # noqa: E402
from acceptance.tools import boom, proof  # noqa: E402
from share.formats.vbe_oracle import Machine, machine  # noqa: E402


def counter(bits, next_of, signals="", body=""):
    loads = "".join(f"r({k}) <= guarded {next_of(k)};\n" for k in range(bits))
    ports = f"ck, en : in bit; q : out bit_vector ({bits - 1} downto 0)"
    declared = f"signal r : reg_vector ({bits - 1} downto 0) register;\n{signals}"
    return boom.entity("count", ports, f"{body}step : block (ck and not ck'stable and en) begin\n{loads}end block;\nq <= r;\n", declared)


def chained(bits):
    carries = "".join(f"c({k + 1}) <= c({k}) and r({k});\n" for k in range(bits))
    return counter(bits, lambda k: f"r({k}) xor c({k})", f"signal c : bit_vector ({bits} downto 0);\n", f"c(0) <= '1';\n{carries}")


def multiplied(bits):
    below = lambda k: " and ".join(f"r({j})" for j in range(k)) or "'1'"
    return counter(bits, lambda k: f"not r({k}) when {below(k)} else r({k})")


def renamed(formula, names):
    """The formula with these bits under other names."""
    if isinstance(formula, int):
        return formula
    if formula[0] == "bit":
        return "bit", names.get(formula[1], formula[1])
    if formula[0] == "not":
        return "not", renamed(formula[1], names)
    if formula[0] == "join":
        return "join", formula[1], [renamed(f, names) for f in formula[2]]
    return "choice", [tuple(renamed(f, names) for f in pair) for pair in formula[1]], renamed(formula[2], names)


def apart(m, name):
    """The machine with its inner signals under names of its own, which yosys would else take for the same in both sources."""
    names = {bit: (f"{name}_{bit[0]}", bit[1]) for bit, _ in m.equations if bit not in m.ports}
    equations = [(names.get(bit, bit), renamed(f, names)) for bit, f in m.equations]
    registers = {bit: tuple(renamed(f, names) for f in pair) for bit, pair in m.registers.items()}
    return Machine(m.name, m.ports, m.clock, equations, registers)


KINDS = {
    "sum": lambda n: (boom.adder(n, True), proof.sum_by_choices(n), (b"else c(%d)" % (n - 2), b"else not c(%d)" % (n - 2))),
    "times": lambda n: (boom.multiplier(n), proof.with_operands_exchanged(boom.multiplier(n)), (b"(s1(%d) and" % (n - 1), b"(s1(%d) nand" % (n - 1))),
    "parity": lambda n: (boom.parity(n), proof.other_parity(n), (b"(x(1) /=", b"(x(1) =")),
    "count": lambda n: (chained(n), multiplied(n), (b"not r(%d) when" % (n - 1), b"r(%d) when" % (n - 1))),
}


def main():
    kind, bits, folder = sys.argv[1], int(sys.argv[2]), pathlib.Path(sys.argv[3])
    a, b, (old, new) = KINDS[kind](bits)
    for name, text in (("a", a), ("b", b), ("c", b.replace(old, new, 1))):
        (folder / f"{name}.vbe").write_bytes(text)
        (folder / f"{name}.v").write_text(verilog.of_machine(apart(machine(text), name), name))
        blif = subprocess.run([sys.executable, HERE.parent / "share/netlist", "--blif", folder / f"{name}.vbe"], check=True, capture_output=True)
        (folder / f"{name}.blif").write_bytes(blif.stdout)


if __name__ == "__main__":
    if len(sys.argv) != 4 or sys.argv[1] not in KINDS:
        sys.exit(__doc__)
    main()
