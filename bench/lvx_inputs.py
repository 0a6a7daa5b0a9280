#!/usr/bin/env python3
"""Makes a netlist of nands, inverters and flip-flops of the row library cells/ three times, as structural texts and as SPICE for netgen.

Usage: bench/lvx_inputs.py INSTANCES FOLDER [SEED]

Writes a.vst and a.sp; b.vst and b.sp, the same netlist with its instances in another order and its signals under other names; and c.vst and
c.sp, in which an input of the last instance but one is on another net than in a.
"""
import pathlib
import random
import re
import sys

import netlist_inputs

PINS = {"inv_x1": "i nq", "na2_x1": "i0 i1 nq", "sff1_x4": "ck i q"}
LINE = re.compile(r"(\w+) : (\w+) port map \((.*)\);")
BIT = re.compile(r"\((\d+)\)")


def spice_line(line):
    name, model, pairs = LINE.match(line).groups()
    nets = dict(pair.split(" => ") for pair in pairs.split(", "))
    named = [BIT.sub(r"_\1", nets[pin]) for pin in (*PINS[model].split(), "vdd", "vss")]
    return f"X{name} {' '.join(named)} {model}\n"


def written(folder, name, lines, signals):
    """The netlist as a structural text, and as SPICE with the cells as black boxes."""
    head = f"{netlist_inputs.HEAD}signal {signals} : bit_vector ({len(lines) - 9} downto 0);\nbegin\n"
    (folder / f"{name}.vst").write_text(f"{head}{''.join(lines)}end structural;\n")
    cells = "".join(f".subckt {model} {pins} vdd vss\n.ends\n" for model, pins in PINS.items())
    ports = " ".join(["ck", *(f"{v}_{k}" for v in "dq" for k in range(8)), "vdd", "vss"])
    (folder / f"{name}.sp").write_text(f"* {name}\n{cells}.subckt n {ports}\n{''.join(map(spice_line, lines))}.ends\n.end\n")


def main():
    count, folder = int(sys.argv[1]), pathlib.Path(sys.argv[2])
    choose = random.Random(f"{sys.argv[3] if len(sys.argv) > 3 else 1} {count}")
    nets, lines = [f"d({k})" for k in range(8)], []
    for number in range(count):
        net = f"q({count - 1 - number})" if number >= count - 8 else f"s({number})"
        lines.append(netlist_inputs.instance(number, net, nets[-200:], choose))
        nets.append(net)
    written(folder, "a", lines, "s")
    written(folder, "b", choose.sample([re.sub(r"\bs\(", "t(", line) for line in lines], count), "t")
    changed = re.sub(r"(i0?) => [^,]*,", lambda found: f"{found[1]} => d(0),", lines[-2], count=1)
    written(folder, "c", [*lines[:-2], changed, lines[-1]], "s")


if __name__ == "__main__":
    main()
