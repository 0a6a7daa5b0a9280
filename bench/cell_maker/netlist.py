"""The transistors of a cell as they are meant, as a spice subcircuit."""

from .measures import DIFFUSION, RAIL_NET

MODEL = {"n": "nfet", "p": "pfet"}
MICRON = 0.1  # a lambda, where the rules are those of 0.2 um gates


def subcircuit(name, placement):
    lines = [f".subckt {name} {' '.join(sorted(placement.pins))} vdd vss"]
    for number, (kind, _, gate, source, drain) in enumerate(placement.transistors):
        low, high = DIFFUSION[kind]
        lines.append(f"M{number} {source} {gate} {drain} {RAIL_NET[kind]} {MODEL[kind]} w={(high - low) * MICRON:g}u l=0.2u")
    return "\n".join(lines + [".ends", ""])
