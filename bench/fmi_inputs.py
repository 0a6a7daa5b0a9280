#!/usr/bin/env python3
"""Writes the state machines that bench/fmi.sh measures.

Usage: bench/fmi_inputs.py KIND STATES INPUTS FOLDER      writes c.fsm into the folder

KIND is chain (each state leads to the next one where all inputs are 1, and only the last shows 1, so that each round tells one more state
apart), random (each leads to four states by conditions over inputs, and shows a function of some), doubled (the same with half as many
states, each twice) or alike (as random, but all show 0: they are one).
"""
import pathlib
import random
import sys

sys.path.append(str(pathlib.Path(__file__).resolve().parent.parent))
from acceptance.tools import syf  # noqa: E402


def text_of(states, inputs, branches):
    names = ", ".join(f"s{k}" for k in range(states))
    ports = f"r : in bit; v : in bit_vector ({inputs - 2} downto 0); o : out bit_vector (1 downto 0)"
    listed = "".join(f"when s{k} =>\n{branch}" for k, branch in enumerate(branches))
    return syf.text_of(names, f"o <= \"00\";\nif r then ns <= s0; else\ncase cs is\n{listed}end case;\nend if;\n", ports)


def chain(states, inputs):
    ones = "1" * (inputs - 1)
    branches = [f"if v = \"{ones}\" then ns <= s{min(k + 1, states - 1)}; else ns <= s{k}; end if;\n" for k in range(states)]
    return text_of(states, inputs, [*branches[:-1], "o(0) <= '1';\n" + branches[-1]])


def branch_of(choose, inputs, leads, is_telling):
    """The branch of a state that leads to these four."""
    some = [choose.randrange(inputs - 1) for _ in range(5)]
    shown = f"o(0) <= v({some[0]}) xor v({some[1]});\no(1) <= v({some[2]}) and not v({some[3]});\n" if is_telling else ""
    asked = [f"v({some[0]}) nand v({some[2]})", f"v({some[1]}) or v({some[3]})", f"v({some[4]})"]
    parts = "".join(f"{'elsif' if k else 'if'} {part} then ns <= s{leads[k]};\n" for k, part in enumerate(asked))
    return f"{shown}{parts}else ns <= s{leads[3]}; end if;\n"


def random_machine(states, inputs, is_telling=True):
    choose = random.Random(states)
    leads = [[choose.randrange(states) for _ in range(4)] for _ in range(states)]
    return text_of(states, inputs, [branch_of(choose, inputs, four, is_telling) for four in leads])


def doubled(states, inputs):
    """State k + states / 2 is state k once more; what leads to one leads to either."""
    choose, half = random.Random(states), states // 2
    leads = [[choose.randrange(half) for _ in range(4)] for _ in range(half)]
    either = [[four[j] + choose.choice([0, half]) for j in range(4)] for four in leads]
    seeds = [choose.random() for _ in range(half)]
    branches = [branch_of(random.Random(seed), inputs, four, True) for fours in (leads, either) for seed, four in zip(seeds, fours)]
    return text_of(2 * half, inputs, branches)


def alike(states, inputs):
    return random_machine(states, inputs, False)


KINDS = {"chain": chain, "random": random_machine, "doubled": doubled, "alike": alike}

if __name__ == "__main__":
    if len(sys.argv) != 5 or sys.argv[1] not in KINDS:
        sys.exit(__doc__)
    (pathlib.Path(sys.argv[4]) / "c.fsm").write_bytes(KINDS[sys.argv[1]](int(sys.argv[2]), int(sys.argv[3])))
