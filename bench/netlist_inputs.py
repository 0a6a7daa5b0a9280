#!/usr/bin/env python3
"""Makes a netlist of nands, inverters and flip-flops of the row library cells/, and patterns for it.

Usage: bench/netlist_inputs.py INSTANCES PATTERNS FOLDER [SEED]

Writes n.vst and n.pat into the folder. One instance in fifty is a flip-flop; all have one clock, and it rises in every other
pattern. Each instance is on one line of some 70 bytes.
"""
import pathlib
import random
import sys

HEAD = """entity n is
  port (ck : in bit; d : in bit_vector (7 downto 0); q : out bit_vector (7 downto 0); vdd : in bit; vss : in bit);
end n;
architecture structural of n is
component inv_x1 port (i : in bit; nq : out bit; vdd : in bit; vss : in bit); end component;
component na2_x1 port (i0 : in bit; i1 : in bit; nq : out bit; vdd : in bit; vss : in bit); end component;
component sff1_x4 port (ck : in bit; i : in bit; q : out bit; vdd : in bit; vss : in bit); end component;
"""


def instance(number, net, near, choose):
    """One that reads nets before it."""
    if number % 50 == 0:
        return f"u{number} : sff1_x4 port map (ck => ck, i => {choose.choice(near)}, q => {net}, vdd => vdd, vss => vss);\n"
    if number % 3 == 0:
        return f"u{number} : inv_x1 port map (i => {choose.choice(near)}, nq => {net}, vdd => vdd, vss => vss);\n"
    left, right = choose.choice(near), choose.choice(near)
    return f"u{number} : na2_x1 port map (i0 => {left}, i1 => {right}, nq => {net}, vdd => vdd, vss => vss);\n"


def main():
    count, patterns, folder = int(sys.argv[1]), int(sys.argv[2]), pathlib.Path(sys.argv[3])
    choose = random.Random(f"{sys.argv[4] if len(sys.argv) > 4 else 1} {count} {patterns}")
    nets, lines = [f"d({k})" for k in range(8)], []
    for number in range(count):
        net = f"q({count - 1 - number})" if number >= count - 8 else f"s({number})"
        lines.append(instance(number, net, nets[-200:], choose))
        nets.append(net)
    (folder / "n.vst").write_text(f"{HEAD}signal s : bit_vector ({count - 9} downto 0);\nbegin\n{''.join(lines)}end structural;\n")
    rows = "".join(f"< {k} ns> : {k % 2} {choose.getrandbits(8):02x} ?*;\n" for k in range(patterns))
    (folder / "n.pat").write_text(f"in ck;\nin d (7 downto 0) X;\nout q (7 downto 0) X;\nbegin\n{rows}end;\n")


if __name__ == "__main__":
    main()
