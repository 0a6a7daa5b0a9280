#!/usr/bin/env python3
"""Makes the data-flow source of an adder or of a multiplier, on standard output.

Usage: bench/arithmetic.py adder|multiplier BITS

The adder carries from bit to bit: s = a + b + c, with one bit more than a. The multiplier adds the BITS rows of a * b one after the other,
each by such an adder.
"""
import sys


def full_adder(total, carry, x, y, z):
    """The two outputs of three bits of one weight."""
    return [f"{total} <= {x} xor {y} xor {z};", f"{carry} <= ({x} and {y}) or ({z} and ({x} xor {y}));"]


def adder(bits):
    ports = f"a, b : in bit_vector ({bits - 1} downto 0); c : in bit; s : out bit_vector ({bits} downto 0)"
    lines = []
    for k in range(bits):
        lines += full_adder(f"s({k})", f"k({k})", f"a({k})", f"b({k})", f"k({k - 1})" if k else "c")
    return ports, [f"k : bit_vector ({bits - 1} downto 0)"], [*lines, f"s({bits}) <= k({bits - 1});"]


def multiplier(bits):
    """Row j holds the sum of the first j + 1 products, moved down by j, in bits + 1 bits; its lowest bit is one of the result."""
    ports = f"a, b : in bit_vector ({bits - 1} downto 0); p : out bit_vector ({2 * bits - 1} downto 0)"
    declared = [f"m{j} : bit_vector ({bits - 1} downto 0)" for j in range(bits)]
    declared += [f"t{j} : bit_vector ({bits} downto 0)" for j in range(bits)] + [f"k{j} : bit_vector ({bits - 1} downto 0)" for j in range(1, bits)]
    lines = [f"m{j}({k}) <= a({k}) and b({j});" for j in range(bits) for k in range(bits)]
    lines += [f"t0({k}) <= m0({k});" for k in range(bits)] + [f"t0({bits}) <= '0';"]
    for j in range(1, bits):
        for k in range(bits):
            lines += full_adder(f"t{j}({k})", f"k{j}({k})", f"m{j}({k})", f"t{j - 1}({k + 1})", f"k{j}({k - 1})" if k else "'0'")
        lines.append(f"t{j}({bits}) <= k{j}({bits - 1});")
    lines += [f"p({j}) <= t{j}(0);" for j in range(bits)]
    lines += [f"p({bits - 1 + k}) <= t{bits - 1}({k});" for k in range(1, bits + 1)]
    return ports, declared, lines


def source(name, ports, declared, lines):
    head = f"entity {name} is port ({ports}; vdd : in bit; vss : in bit); end {name};\narchitecture vbe of {name} is\n"
    signals = "".join(f"  signal {one};\n" for one in declared)
    return f"{head}{signals}begin\n" + "".join(f"  {line}\n" for line in lines) + "end vbe;\n"


def main():
    kinds = {"adder": adder, "multiplier": multiplier}
    if len(sys.argv) != 3 or sys.argv[1] not in kinds or not sys.argv[2].isdigit() or int(sys.argv[2]) < 1:
        sys.exit(__doc__)
    print(source(f"{sys.argv[1]}{sys.argv[2]}", *kinds[sys.argv[1]](int(sys.argv[2]))), end="")


if __name__ == "__main__":
    main()
