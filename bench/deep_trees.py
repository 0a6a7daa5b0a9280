"""Sources whose trees read few inputs again and again, so that their gates have very many cuts.

Usage: deep_trees.py KIND GATES [SEED]      prints the source

KIND is `ands`: a chain of ands over two inputs; `chains`: four chains of four kinds of gates over two inputs, joined; or `formula`: a
random formula over four inputs.
"""

import random
import sys

JOINED = 29


def chain(name, operators, inputs, gates):
    """The lines of a chain of signals, each of which joins the one before it and an input, and the last one's name."""
    lines, last = [], inputs[0]
    for k in range(gates):
        lines.append(f"{name}({k}) <= {last} {operators[k // 2 % len(operators)]} {inputs[(k + 1) % len(inputs)]};")
        last = f"{name}({k})"
    return lines, last


def ands(gates):
    lines, last = chain("s", ["and"], ["a(0)", "a(1)"], gates)
    return 2, {"s": gates}, [*lines, f"y <= {last};"]


def chains(gates):
    kinds, lines, ends, signals = ["and", "or", "nand", "nor"], [], [], {}
    for k in range(4):
        name, inputs = f"s{k}", ["a(0)", "a(1)"][:: 1 if k % 2 else -1]
        own, last = chain(name, [*kinds[k:], *kinds[:k]], inputs, gates // 4)
        lines, ends, signals[name] = [*lines, *own], [*ends, last], gates // 4
    return 2, signals, [*lines, f"y <= ({ends[0]} and {ends[1]}) or ({ends[2]} nand {ends[3]});"]


def formula(gates, choose):
    """A random formula. Its larger parts are signals, so that no text is too deep."""
    lines = []

    def part(gates):
        if gates == 0:
            return f"a({choose.randrange(4)})"
        first = choose.randrange(gates) if choose.random() < 0.5 else choose.randrange(min(gates, 4))
        sides = [part(first), part(gates - 1 - first)]
        made = f"({sides[0]} {choose.choice(['and', 'or', 'nand', 'nor'])} {sides[1]})"
        if gates < JOINED:
            return made
        lines.append(f"s({len(lines)}) <= {made};")
        return f"s({len(lines) - 1})"

    sys.setrecursionlimit(10 * gates + 1000)
    last = part(gates)
    return 4, {"s": len(lines)}, [*lines, f"y <= {last};"]


def main(kind, gates, seed="1"):
    gates = int(gates)
    inputs, signals, lines = {"ands": ands, "chains": chains}[kind](gates) if kind != "formula" else formula(gates, random.Random(seed))
    declared = [f"signal {name} : bit_vector ({count - 1} downto 0);" for name, count in signals.items() if count]
    ports = f"a : in bit_vector ({inputs - 1} downto 0); y : out bit; vdd, vss : in bit"
    print("\n".join([f"entity deep is port ({ports}); end deep;", "architecture vbe of deep is", *declared, "begin", *lines, "end vbe;"]))


if __name__ == "__main__":
    main(*sys.argv[1:])
